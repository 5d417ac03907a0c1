#!/usr/bin/env python3
"""style.py [words]: counts, for each page that is kept by hand, its words and the words that plain technical English avoids.

For each page: its words, those of its prose (without code), the average length of a sentence of its paragraphs, and how often
each rule is broken. A word has a letter or a digit. The last line sums up. With `words` it prints the lines that break a rule,
and the longest sentences. Code, quoted words and tables of replies don't count for the rules. Ends with 1 if a page breaks a
rule more than twice, if an average is above 25 words, or if all pages have more than 30,000 words. Generated pages, and the
table that tests/gate_costs.py writes, aren't counted.
"""
import glob, os, re, sys

TOP = os.path.dirname(os.path.dirname(os.path.abspath(__file__)))
GENERATED = {"DEFINITIONS.md", "CONTRACTS.md"}
MOST_WORDS, MOST_AVERAGE, MOST_BREAKS = 30_000, 25, 2
RULES = {
    "behind, for after": r"\bbehind\b",
    "told, for says or reports": r"\b(is|are|was|were) told\b|\btells? (of|that|what|which)\b",
    "stands, for is in": r"\bstands?\b(?! (for|still))",
    "wanting, for missing": r"\bwanting\b|\bwant of\b|\bin want\b",
    "but for, for except": r"\bbut for\b",
    "another than, for differs": r"\b(is|are) (another|others|other) than\b",
    "preposition and which": r"\b(in|by|of|from|at|for|to|on|with|over|under) which\b",
    "where, for if": r"(^|[.;:] )Where\b|, where\b",
    "what, as a subject": r"(^|[.;:] )What (is|are|was|comes|has|may|the)\b",
    "that of, as a subject": r"(^|[.;:] )(That|Those) of\b",
    "the one .. the other": r"\bthe one\b.*\bthe other\b|\bfrom the one\b",
    "Price, for Cost": r"\*?Price:|Hangs on:",
}


def words_of(text):
    return [word for word in text.split() if re.search(r"[\w`]", word)]


def prose(text):
    """The lines of a page, with code and quoted words left out."""
    is_code = False
    for number, line in enumerate(text.split("\n"), 1):
        if line.startswith("```"): is_code = not is_code
        if is_code or line.startswith("    ") or line.startswith("```"): continue
        yield number, re.sub(r"`[^`]*`|\"[^\"]*\"|\]\([^)]*\)", "`", line)


def sentences(text):
    """The sentences of a page's paragraphs and lists; tables and headings have none."""
    paragraphs, is_open = [], False
    for _, line in prose(text):
        bare = re.sub(r"^(> ?)+", "", line.strip()).strip()
        if not bare or bare[0] in "|#!<":
            is_open = False
        elif is_open and not re.match(r"([-*] |\d+\. )", bare):
            paragraphs[-1] += " " + bare
        else:
            paragraphs.append(re.sub(r"^([-*] |\d+\. )", "", bare))
            is_open = True
    found = [one for paragraph in paragraphs for one in re.split(r"(?<=[.?!])\**\)?\s+(?=[A-Z`*(\[\d])| · ", paragraph)]
    return [one for one in found if words_of(one)]


def main(shows):
    pages = sorted(path for folder in (".", "docs", "bench", "examples") for path in glob.glob(f"{TOP}/{folder}/*.md"))
    worst, total, total_prose, lengths, longest = 0, 0, 0, [], 0
    for page in (page for page in pages if os.path.basename(page) not in GENERATED):
        with open(page, encoding="utf-8") as file: text = re.sub(r"<!-- costs:(.|\n)*costs end -->", "", file.read())
        lines, parts = list(prose(text)), sentences(text)
        found = {rule: [(n, line) for n, line in lines for _ in re.finditer(words, line)] for rule, words in RULES.items()}
        counts = {rule: len(hits) for rule, hits in found.items() if hits}
        long = [len(words_of(part)) for part in parts]
        average = sum(long) / max(1, len(long))
        words, plain = len(words_of(text)), sum(len(words_of(line)) for _, line in lines)
        worst, longest = max([worst, *counts.values()]), max(longest, average)
        total, total_prose, lengths = total + words, total_prose + plain, lengths + long
        print(f"{os.path.relpath(page, TOP)}: {words:,} words, {plain:,} of prose, {average:.1f} a sentence; "
              + (", ".join(f"{rule} {count}" for rule, count in counts.items()) or "no rule broken"))
        for rule in counts if shows else ():
            for number, line in found[rule]: print(f"    {number}: {rule}: {line.strip()}")
        for part in sorted(parts, key=lambda part: -len(words_of(part)))[:3 if shows else 0]:
            print(f"    {len(words_of(part))} words: {part}")
    print(f"all pages kept by hand: {total:,} words, {total_prose:,} of prose, {sum(lengths) / len(lengths):.1f} a sentence")
    return 1 if worst > MOST_BREAKS or longest > MOST_AVERAGE or total > MOST_WORDS else 0


sys.exit(main(sys.argv[1:] == ["words"]))
