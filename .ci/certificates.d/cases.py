"""The certificate that docs/CERTIFICATES.md shows, and the changes of it in the table there, each with its judgement."""

import re

LAST_STEP = ": rup 0 1 2 3 4 5\n"


def shown(page):
    """Returns the certificate, which stands line by line left of a bar."""
    block = next(block for block in page.split("```\n")[1::2] if block.startswith("ct-certificate 1 "))
    return "".join(line.partition("|")[0].rstrip(" ") + "\n" for line in block.splitlines())


def replaced(text, old, new):
    if text.count(old) != 1:
        raise ValueError(f"{old!r} stands {text.count(old)} times in the certificate of the page")
    return text.replace(old, new)


def steps_of(text):
    """Returns the lines of all steps."""
    return text[text.index("+n10 : root") : text.rindex("end\n")]


# The rows that say in words what is changed, or to what.
IN_WORDS = {
    ("no change", ""): lambda text: [text],
    ("`path 6 4 7`", "`path` and a blank behind it"): lambda text: [replaced(text, "path 6 4 7", "path ")],
    ("`proof 10 7`, and the line of step 6", "`proof 10 6`, and no such line"): lambda text: [
        replaced(replaced(text, "proof 10 7", "proof 10 6"), LAST_STEP, "")
    ],
    ("`proof 10 7`, and all seven steps", "`proof 10 0`"): lambda text: [
        replaced(replaced(text, "proof 10 7", "proof 10 0"), steps_of(text), "")
    ],
    ("the last line", "left out, or `end` twice, or an empty line behind it"): lambda text: [
        text.removesuffix("end\n") + end for end in ("", "end\nend\n", "end\n\n")
    ],
    ("all line ends", "0d 0a"): lambda text: [text.replace("\n", "\r\n")],
}


def variants(text, change, to):
    """Returns the certificates of a row."""
    if (change, to) in IN_WORDS:
        return IN_WORDS[change, to](text)
    old, new = re.findall("`([^`]*)`", change), re.findall("`([^`]*)`", to)
    if [f"`{one}`" for one in old] != [change] or ", ".join(f"`{one}`" for one in new) != to:
        raise ValueError(f"a row of the page that is not read: {change} | {to}")
    return [replaced(text, old[0], one) for one in new]


def cases(page):
    """Gives all cases of the page: a name, the bytes, and the line that is wanted, which is none for no certificate."""
    text = shown(page)
    rows = page.partition("\n## More cases\n")[2].partition("\n## ")[0]
    for row in re.findall(r"^\|(.*)\|$", rows, re.MULTILINE):
        change, to, judgement = (cell.strip(" ") for cell in row.split("|"))
        if change == "Change" or change.startswith("---"):
            continue
        line = re.match("`(accepted [0-9]+|rejected (?:words at|proof) [0-9]+)`", judgement)
        if not line and judgement != "not a certificate":
            raise ValueError(f"a judgement of the page that is not read: {judgement}")
        for number, one in enumerate(variants(text, change, to), 1):
            yield f"the page's {change} to {to}, {number}", one.encode(), line[1] + "\n" if line else ""
