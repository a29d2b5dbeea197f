#!/usr/bin/env python3
"""Gives the repository's own definitions and lemmas today's spelling, once, after /opt/rattle/port/port.py.

usage: python3 tools/spelling.py LANDED      at the top; LANDED is the commit that port.py was run on

Words are in snake case, types and facts in upper camel case, and so are the rules' names in snake case. A dash stays in a lemma's name where
it joins two names of definitions, as the library writes them. Names of the kit, and names that the check makes of the code, are left. Comments
are those of LANDED again, with the names in backticks spelled anew.
"""
import glob
import re
import subprocess
import sys

TOKEN = re.compile(r"[^\s(){}\[\],;.\"`]+")
KIT_PATH = re.compile(r"use ([^\s.{]+)(\S*?)\.\{([^}]*)\}")
WORDS = {"append", "length", "take", "drop", "map", "replicate", "set", "sets", "get_or", "reverse", "suc", "zero", "nil", "cons", "add", "sub", "mul", "div", "mod", "pow", "min", "max"}
OPERATOR_RULES = "NEG INV NOT ADD SUB MUL LT GT LE GE EQ NE AND OR XOR".split()
RULES = {
    **{name: "takes_" + name.lower() for name in OPERATOR_RULES},
    "INT": "int_counts", "FLOAT": "float_counts", "WORD": "word_has_bits", "BIT": "bit_has_bits",
    "DUE": "e_due", "IF-DUE": "e_if_due", "SEQUENCE-DUE": "e_sequence_due", "TEST-DUE": "e_test_due", "BODY-DUE": "e_body_due",
    "LEAVE": "e_leave", "AGAIN": "e_again", "LAY-NONE": "lay_none", "LAY-NEXT": "lay_next",
}
BY_HAND = {
    "fits-step": "fits_step", "no-other-lane": "no_other_lane", "six-words": "six_words", "step-costs": "step_costs", "lane-bit": "lane_bit",
    "value-fits": "value_fits", "whole-units": "whole_units",
    "Goes_on": "GoesOn", "getD-inside": "get_or_inside", "getD-load": "get_or-load",
    "getD-zipWith": "get_or-zip_with", "length-zipWith": "length-zip_with", "one_of_lem": "one_of",
    "◌one-of◌": "◌one_of◌", "◌takes-two◌gives◌": "◌takes_two◌gives◌", "Too-deep": "IsTooDeep",
    "nan-bits": "nan_pattern_bits",
}
# The choice that does not compute what it leaves is not the library's, and the operator `!` is not its `not`.
CHOICE = {"if": "when", "if◌then◌else◌": "when◌then◌else◌"}
# Names of the kit that a name of the repository now falls together with, by file.
APART = {"crates/floats/proofs/Patterns.antt": {"is_nan": "ieee_is_nan"}}


def sources():
    found = glob.glob("crates/*/specs/**/*.antt", recursive=True) + glob.glob("crates/*/proofs/**/*.antt", recursive=True)
    return sorted(found + glob.glob("crates/*/src/**/*.rt", recursive=True))


def parts(text, mark):
    """The text as pieces (code?, piece): comments and string literals are not code."""
    pieces, at = [], 0
    pattern = re.compile(r'"(?:\\.|[^"\\\n])*"|' + mark + r"[^\n]*")
    for match in pattern.finditer(text):
        if match.group().startswith(mark) and mark == "--" and match.start() and text[match.start() - 1] not in " \n\t":
            continue
        pieces.append((True, text[at : match.start()]))
        pieces.append((False, match.group()))
        at = match.end()
    pieces.append((True, text[at:]))
    return pieces


def mark_of(path):
    return "--" if path.endswith(".antt") else "//"


def landed_text(commit, path):
    if "/+" in path:
        head, rest = path.split("/+", 1)
        cycle, tail = rest.split("/", 1)
        there = subprocess.run(["git", "ls-tree", "-d", "--name-only", commit, head + "/"], capture_output=True, text=True).stdout.split()
        for folder in there:
            if folder.rsplit("/", 1)[1].startswith("+") and folder.rsplit("/+", 1)[1].replace("+", "_") == cycle.replace("+", "_"):
                path = folder + "/" + tail
    shown = subprocess.run(["git", "show", f"{commit}:{path}"], capture_output=True, text=True)
    return shown.stdout if shown.returncode == 0 else None


def kit_names(texts, crates):
    names = set()
    for text in texts.values():
        for match in KIT_PATH.finditer(text):
            root, rest = match.group(1), match.group(2)
            own = root == "Rattle" and rest.lstrip(".").split(".")[0] in crates
            if not own:
                names.update(name.split(" as ")[0].strip() for name in match.group(3).split(","))
    return names


def defined(texts):
    """Names that specs/ define with a signature at the left margin or one step in."""
    names = set()
    for path, text in texts.items():
        if "/specs/" in path:
            for line in text.split("\n"):
                match = re.match(r"^(?:abbrev |unfoldable |pub |data |record )*([^\s(){}\[\],;.:λ=]+) :(?:\s|$)", line)
                if match:
                    names.add(match.group(1))
    return names


def camel(name):
    return "".join(piece[:1].upper() + piece[1:] for piece in name.split("-"))


def lemma(name, names):
    """A dash stays between two pieces that are names of definitions; elsewhere it is an underscore."""
    pieces, out, at = name.split("-"), [], 0
    while at < len(pieces):
        for end in range(len(pieces), at, -1):
            joined = "_".join(pieces[at:end])
            if joined in names:
                out.append((joined, True))
                break
        else:
            end = at + 1
            out.append((pieces[at], False))
        at = end
    text = out[0][0]
    for (_, before), (word, is_name) in zip(out, out[1:]):
        text += ("-" if before and is_name else "_") + word
    return text


def apart(texts):
    """Gives a name of the kit another name where one of the repository now has it."""
    for path, names in APART.items():
        for old, new in names.items():
            text = re.sub(rf"(?<![\w.-]){old}(?![\w-])", new, texts[path])
            texts[path] = re.sub(rf"(use (?!Rattle)[^\n]*[{{ ]){new}(?=[,}}])", rf"\1{old} as {new}", text)


def places_of(texts):
    """Each word of the code, with the files that have it."""
    tokens = {}
    for path, text in texts.items():
        for is_code, piece in parts(text, mark_of(path)):
            if is_code:
                for token in TOKEN.findall(piece):
                    tokens.setdefault(token, set()).add(path)
    return tokens


def respelled(token, kit, specs, names):
    """The word's new spelling, or None where it keeps the one that it has."""
    if token in BY_HAND:
        return BY_HAND[token]
    if token in RULES:
        return RULES[token]
    if re.fullmatch(r"[TER]-[A-Z-]+", token):
        return token.replace("-", "_").lower()
    if "-" not in token.strip("-") or token in kit or not re.match(r"[^\W\d_]", token) or token.startswith("Need-"):
        return None
    if token[0].isupper():
        return camel(token)
    return token.replace("-", "_") if token in specs else lemma(token, names)


def renamings(texts):
    """Old and new spelling of each word that changes; says where a new one stands already."""
    kit = kit_names(texts, {path.split("/")[1] for path in texts})
    specs = defined(texts)
    names = {name.replace("-", "_") for name in specs if name[0].islower()} | WORDS
    tokens = places_of(texts)
    turn = {token: new for token in tokens if (new := respelled(token, kit, specs, names))}
    back = {}
    for old, new in sorted(turn.items()):
        if new != old and new in tokens and tokens[new] & tokens[old]:
            print(f"look: {old} -> {new}, which stands beside it: {sorted(tokens[new] & tokens[old])[:3]}")
        if new in back:
            print(f"look: {old} and {back[new]} -> {new}")
        back[new] = old
    return turn


def speller(path, text, turn):
    """What a word of a file's code becomes."""
    is_proof = path.endswith(".antt")
    has_not = is_proof and "Not as not" in text

    def spell(match):
        token = match.group()
        if is_proof and token in CHOICE:
            return CHOICE[token]
        if has_not and token == "not" and match.string[: match.start()][-1:] != ".":
            return "unary_not"
        # A rule's name is one in the crate of the rules alone: elsewhere it is a constant of the code.
        if token in RULES and not path.startswith("crates/rules/"):
            return token
        return turn.get(token, token)

    return spell


def rewritten(path, text, commit, turn):
    """The file with its words spelled anew, and with the comments and texts of the commit."""
    mark = mark_of(path)
    landed = landed_text(commit, path)
    old = [piece for is_code, piece in parts(landed, mark) if not is_code] if landed is not None else []
    pieces = parts(text, mark)
    now = [piece for is_code, piece in pieces if not is_code]
    if [piece[:1] == '"' for piece in old] != [piece[:1] == '"' for piece in now]:
        print(f"look: {path}: {len(old)} comments and texts, now {len(now)}")
        old = now
    spell = speller(path, text, turn)
    # In a comment the words of the definitions' own language stay.
    quoted = lambda match: TOKEN.sub(lambda word: turn.get(word.group(), word.group()), match.group())
    kept = iter(old)
    return "".join(
        TOKEN.sub(spell, piece) if is_code else was if (was := next(kept)).startswith('"') else re.sub(r"`[^`]*`", quoted, was)
        for is_code, piece in pieces
    )


def main(commit):
    texts = {path: open(path, encoding="utf-8").read() for path in sources()}
    apart(texts)
    turn = renamings(texts)
    for path, text in texts.items():
        new = rewritten(path, text, commit, turn)
        if new != text:
            open(path, "w", encoding="utf-8").write(new)


if __name__ == "__main__":
    main(sys.argv[1])
