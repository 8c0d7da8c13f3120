"""A public question: its source, and the definitions of what the questions of a crate answer."""

import re

from compare.spelling import plain, spelled
from public.layout import LIMIT, uses
from public.table import ANSWERS, ANY_PLACE, BLOCK, LIST_PLACE, LOGIC, NUMBERS, PICKER, PIECE

WRITTEN = 'Written by tools/publics.py, and not by hand.'
REQUIRED = 'None requires anything: each is refused as the table says, or answers what the definition replies.'
MEMORY = ['words: &[u64]', 'cells: &[u16]']
CONVERT = {'usize': 'usize_to_u64', 'u16': 'u16_to_u64'}

# what a question is given of the picker that was admitted
GIVEN = {'s': 'picker.shape', 'live': 'picker.live', 'counts': '&counts'}

# modules of the definitions
PRELUDE, REFUSAL = 'Rattle.std.specs.Prelude', 'Rattle.types.specs.declared.refusal.Refusal'
QUESTIONS, CALLS = 'Rattle.model.specs.ask.Questions', 'Rattle.model.specs.Calls'
CALLING, CORES, ADMITTING = (f'Rattle.picker_{x}' for x in ('calls.specs.Calling', 'calls.specs.Cores', 'answers.specs.Admitting'))
NUMBER = 'Rattle.types.specs.Piece', 'number_of'

# what the questions below say of a number of theirs, and how a public one says it
SPOKEN = {'partial k.': 'the partial at a place, by rising piece.', 'Extent k,': 'The extent at a place,', 'at place k of': 'at a place of'}


def commented(mark, text):
    """A comment in lines of at most 140 characters."""
    lines, line = [], mark
    for word in text.split():
        if len(line) + 1 + len(word) > LIMIT:
            lines.append(line)
            line = mark
        line += ' ' + word
    return '\n'.join(lines + [line]) + '\n'


class Question:
    """One question of a source below, as a public call."""

    def __init__(self, root, text, crate, module, name):
        pattern = r'(?ms)((?:^//[^\n]*\n)*)(?:^#\[.*?\]\n)*^pub fn {}\((.*?)\) -> ([^\n]+)\n(.*?)^\{{\n'.format(name)
        self.comment, parameters, self.gives, clauses = re.search(pattern, text).groups()
        self.root, self.name, self.crate, self.module, self.below = root, name, crate, module, module.crate
        self.takes = [p.split(':')[0].strip() for p in parameters.replace('\n', ' ').split(',') if p.strip()]
        ensured = re.search(r'(?s)ensures(?: \w+)? \{ (.*) \}', clauses).group(1)
        says = re.match(r'\w+', ensured).group(0)
        self.wrap = re.search(r'(\w+) result\)$' if says.endswith('Say') or says.endswith('Says') else r'^(\w+) result\b', ensured).group(1)
        self.answer = next(a for wrap, a in ANSWERS.items() if plain(wrap) == plain(self.wrap))
        self.home = self.answer.home or crate.name
        self.q = spelled(QUESTIONS, name)
        self.convert = CONVERT.get(self.gives)
        self.type = 'u64' if self.convert else self.gives
        for short, long in SPOKEN.items():
            self.comment = self.comment.replace(short, long)
        self.kind, numbers = self.of()
        self.numbers = {n: of.format(number_of=spelled(*NUMBER)) for n, of in NUMBERS.get(numbers, {}).items()}

    def of(self):
        """The kind of the question, and the numbers that it takes."""
        if self.name == 'list_place':
            return LIST_PLACE, 'PLACE'
        if 'k' in self.takes:
            return ANY_PLACE, 'PLACE'
        if 'j' in self.takes:
            return BLOCK, 'BLOCK'
        return (PIECE, 'PIECE') if 'i' in self.takes else (PICKER, '')

    def answers(self):
        """The module with the definition of the answer."""
        return f'Rattle.{self.home}.specs.Answers'

    def told(self):
        """The definition of the answer."""
        return spelled(self.answers(), self.answer.told) if self.answer.home else self.answer.told

    def constructors(self):
        """The definition's names in the question."""
        return [spelled(QUESTIONS, self.kind.of), self.q] if self.kind.of else [self.q]

    def asked(self):
        """The definition's question."""
        return self.kind.question.format(of=self.constructors()[0], q=self.q, **self.numbers)

    def parameter(self):
        return [f'{self.kind.parameter}: {self.kind.type}'] if self.kind.parameter else []

    def source(self):
        """The core and the question."""
        core = MEMORY + ['rows: &[u32]', 'lent: usize'] + self.parameter()
        public = MEMORY + ['partials: &[DownloadingPiece]'] + self.parameter()
        passed = ''.join(f', {x}' for x in self.kind.arguments)
        reply = f'{self.below}::{self.name}({", ".join(self.takes_in_core())})'
        if self.convert:
            reply = f'{self.convert}({reply})'
        lines = ['let mut counts = [0; 1536];'] + self.kind.lets
        lines += [f'let picker = {self.kind.admit}(words, cells, rows, lent, &mut counts{passed})?;', f'Ok({reply})']
        argument = ''.join(f', {p.split(":")[0]}' for p in self.parameter())
        asks = ['let mut rows = [0; 1536];', 'let live = live_records(words);', 'let lent = unpack(partials, live, &mut rows);',
                f'{self.name}_core(words, cells, &rows, lent{argument})']
        return (
            f'fn {self.name}_core({", ".join(core)}) -> Result<{self.type}, Refusal>\n'
            '    requires { length rows.now ≡ 1536 }\n'
            f'    ensures {{ {spelled(ADMITTING, "CoreAnswered")} words.now cells.now rows.now lent\n'
            f'        ({self.asked()}) ({self.told()} result) }}\n'
            '{\n' + ''.join(f'    {x}\n' for x in lines) + '}\n\n'
            + self.comment +
            f'pub fn {self.name}({", ".join(public)}) -> Result<{self.type}, Refusal>\n'
            f'    ensures {{ {self.told()} result ≡ {spelled(CALLING, "answer_on")}'
            f' ({spelled(CORES, "lending")} words.now cells.now partials.now)\n'
            f'        ({spelled(CALLS, "question")} ({self.asked()})) }}\n'
            '{\n' + ''.join(f'    {x}\n' for x in asks) + '}\n'
        )

    def takes_in_core(self):
        """What the question below is given."""
        return [GIVEN.get(p, p) for p in self.takes]

    def declared(self):
        """The source that declares the type answered, or None where it is the language's."""
        return declaring(self.root, self.below, self.type) if self.type.isidentifier() and self.type not in LOGIC else None


def declaring(root, crate, name):
    """The name of the source of a crate that declares a type."""
    found = [p.stem for p in sorted((root / f'crates/{crate}/src').glob('*.rt')) if re.search(rf'(?m)^pub (?:struct|enum) {name}\b', p.read_text())]
    return found[0]


def logic(name):
    """A type of the language as the definitions call it."""
    option = re.fullmatch(r'Option<(.+)>', name)
    return f'(Option {logic(option[1])})' if option else LOGIC.get(name, name)


def module_source(crate, module, questions):
    """A module of a crate."""
    types = {'memory_records::DownloadingPiece', 'memory_records::live_records', 'memory_records::unpack', 'types::Refusal'}
    types |= {f'picker_answers::{q.kind.admit}' for q in questions}
    types |= {f'{q.below}::{q.type}' for q in questions if q.declared()}
    types |= {f'types::{q.convert}' for q in questions if q.convert}
    types |= {f'types::{q.kind.type}' for q in questions if q.kind.type[:1].isupper()}
    types |= {'types::i32_to_usize' for q in questions if any('i32_to_usize' in x for x in q.kind.lets)}
    ghosts = {PRELUDE: ['◌≡◌', 'length']}
    if any(q.numbers for q in questions):
        ghosts[NUMBER[0]] = [spelled(*NUMBER)]
    ghosts[QUESTIONS] = [x for q in questions for x in q.constructors()]
    for home, name in ((CALLS, 'question'), (CALLING, 'answer_on'), (CORES, 'lending'), (ADMITTING, 'CoreAnswered')):
        ghosts[home] = [spelled(home, name)]
    for q in questions:
        ghosts.setdefault(q.answers(), []).append(q.told())
    return (commented('//', module.comment) + commented('//', WRITTEN) + ''.join(f'use {t};\n' for t in sorted(types))
            + uses(ghosts, 'ghost use ', ';') + '\n' + '\n'.join(q.source() for q in questions))


def answers_of(questions):
    """The answers that a crate defines, each with the first question of it."""
    found = {}
    for q in questions:
        if not q.answer.home:
            found.setdefault(q.wrap, q)
    return found


def answer_files(crate, own, texts):
    """What the answers of a crate are in the definition."""
    top, answer, refused, replied = f'crates/{crate.name}', *(spelled(CALLS, x) for x in ('Answer', 'refused', 'replied'))
    types = {x for q in own.values() for x in re.findall(r'\w+', logic(q.type))}
    cited = {PRELUDE: sorted(types & {'Bool', 'Option', 'ℕ'} | {'Err', 'Ok', 'Result'}), REFUSAL: ['Refusal']}
    for q in own.values():
        if q.declared():
            at = '' if q.declared() == 'lib' else f'{q.declared()}.'
            cited[f'Rattle.{q.below}.specs.declared.{at}{q.type}'] = [q.type]
    cited[CALLS] = [answer, refused, replied]
    specs = ''
    for wrap, q in own.items():
        cited.setdefault(defined(texts[q.module.name], wrap), []).append(wrap)
        specs += (f'\n-- {q.answer.comment}\nabbrev pub {q.told()} : (r : Result {logic(q.type)} Refusal) → {answer}\n'
                  f'{q.told()} (Err why) = {refused} why\n{q.told()} (Ok x) = {replied} ({wrap} x)\n')
    return {
        f'{top}/specs/Lib.antt': 'pub mod Answers\n',
        f'{top}/specs/Answers.antt': commented('--', 'What the answers of these questions are in the definition. Assumes nothing.')
        + commented('--', WRITTEN) + uses(cited) + specs,
    }


def defined(text, name):
    """The module of the definitions that a source cites a name from."""
    for module, names in re.findall(r'(?m)^ghost use (.+)\.\{(.*)\};$', text):
        if name in names.split(', '):
            return module
    raise KeyError(name)


def crate_files(root, crate):
    """Every file of a crate with its text."""
    top, made, questions, texts = f'crates/{crate.name}', {}, [], {}
    for module in crate.modules:
        text = texts[module.name] = (root / f'crates/{module.crate}/src/{module.source}.rt').read_text()
        asked = [Question(root, text, crate, module, name) for name in module.questions.split()]
        questions += asked
        made[f'{top}/src/{module.name}.rt'] = module_source(crate, module, asked)
    own = answers_of(questions)
    mods = sorted(m.name for m in crate.modules)
    exports = sorted(f'{q.module.name}::{q.name}' for q in questions)
    made[f'{top}/src/lib.rt'] = (
        commented('//', f'{crate.comment} {REQUIRED}') + commented('//', WRITTEN) + ''.join(f'mod {m};\n' for m in mods) + '\n'
        + ''.join(f'pub use {x};\n' for x in exports)
    )
    if own:
        made |= answer_files(crate, own, texts)
    return made
