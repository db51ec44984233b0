"""docs/BELIEVED.md as it is read aloud: a name word by word, as `after_runs` and `IsFileOf`, four signs of the formulas as a
word each, all other signs as nothing. Comments, and the tables that are counted, are left out."""
import re

WORDS_A_MINUTE = 150
SIGNS = {"→": "to", "×": "and", "≡": "equals", "⊎": "or"}
HALF = "<!-- half -->"  # up to here one needs it for the shortest boot


def parts_of(text):
    """The page up to its second half, and the whole of it."""
    return {"first": text[: text.index(HALF)], "whole": text}


def spoken(text):
    """The text as it is read aloud. A line of a quote, a row of a table and a heading end as a sentence does."""
    text = re.sub(r"<!-- (numbers|tries) -->\n.*?<!-- end -->", "", text, flags=re.S)
    text = re.sub(r"<!--.*?-->|```|^\|[-|]+\|$", "", text, flags=re.S | re.M)
    text = re.sub(r"^#+ (.*)|^(\|.*)", r"\1\2.", text, flags=re.M)
    for sign, word in SIGNS.items():
        text = text.replace(sign, f" {word} ")
    text = re.sub(r"(?<=[a-z0-9])(?=[A-Z])", " ", text)
    text = re.sub(r"(?<=\w)[_./](?=\w)|[^\w\s.,;:?!'()-]", " ", text)
    return re.sub(r"[ \t]+", " ", text).strip() + "\n"


def minutes_of(text):
    """How long it takes to read this aloud, to five minutes."""
    return max(5, 5 * round(len(re.findall(r"\w+", spoken(text))) / WORDS_A_MINUTE / 5))
