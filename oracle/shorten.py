"""An outcome on standard input, printed with each image of more than 2,000 bytes as its length and SHA-256: so the outcomes in tests/
stay short enough to be kept and read. Other lines go through as they are."""
import hashlib
import sys

LONG = 2 * 2000


def shortened(line):
    word, _, digits = line.rstrip("\n").partition(" ")
    if word != "image" or len(digits) <= LONG:
        return line
    data = bytes.fromhex(digits)
    return f"image of {len(data)} bytes, sha256 {hashlib.sha256(data).hexdigest()}\n"


def main():
    for line in sys.stdin:
        sys.stdout.write(shortened(line))


if __name__ == "__main__":
    main()
