"""What the documents have their readers paste."""
import re

from lib import TOP


def blocks(page, section, indent=4):
    """The blocks of code in a section of a page, such as OPERATING.md, that stand so far to the right."""
    with open(f"{TOP}/docs/{page}", encoding="utf-8") as file:
        text = re.split(rf"\n##+ {re.escape(section)}\n", file.read(), maxsplit=1)[1]
    text = re.split(r"\n##+ ", text, maxsplit=1)[0]
    found = re.findall(rf"(?:^ {{{indent}}}.*\n|^\n(?= {{{indent}}}))+", text, re.MULTILINE)
    return [re.sub(rf"(?m)^ {{{indent}}}", "", block).strip() for block in found if block.strip()]
