"""The files that the programs of tools/ write."""
import os


def write(path, data):
    os.makedirs(os.path.dirname(path), exist_ok=True)
    with open(path, "wb") as file:
        file.write(data)


def write_lines(path, lines):
    write(path, "".join(line + "\n" for line in lines).encode())


def words(numbers):
    """Words of 8 hexadecimal digits, as the crate hex_words reads them."""
    return " ".join(f"{n:08x}" for n in numbers)
