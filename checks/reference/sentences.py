#!/usr/bin/env python3
"""Lists the sentences of the pages written by hand that have more than 35 words, or no verb, and ends with status 1 if there is one.

    checks/reference/sentences.py [PAGE..]

These do not count: headings, tables, blocks of code, the name of a file above its block, what a script makes, the first sentence of the
italic line at a page's head, and a label of up to three words in bold. An item of a list is a text of its own. But a short item that begins
in lower case or with code, below a line that ends with a colon, goes on with that line's sentence, and needs no verb.

"No verb" is a rule of thumb, by lists of words. A word is a verb if `FINITE` has it, or if `VERBS` has it or the word of which it is the
form in -s, unless the words beside it make it a noun ("the names", "names of") or an infinitive ("to name"). Words such as "that", "if" and
"which" begin a clause that is no sentence by itself. So a sentence needs one verb more than it has such words. A sentence that is right,
and that the rule does not take for right, is put in other words, or its verb is added to the list. `FRAGMENTS` and `WHOLE` hold the rule.
"""

import re
import sys

sys.dont_write_bytecode = True

from words import CODE, MADE, PAGES, TOP

MOST = 35
SHORT = 16  # the most words of an item that goes on with the sentence above its list

# Forms that are verbs whatever comes before them, except an infinitive
FINITE = set(
    """
    appeared are aren't became began brought built came can can't cannot changed chose cost costs could crashed did do does doesn't
    don't drew existed fell found gave got grew had happened has have held hid hold is isn't kept knew lay led left lost made may meant
    met might must put ran read said sat saw sent set should showed stood took was went were will won't would wrote
    """.split()
)
# Verbs in the form of the imperative, and of "they"
VERBS = set(
    """
    accept accuse acknowledge act add agree allow analyse answer appear append apply arrive ascend ask assert assume audit back become
    begin believe belong bind borrow bound break bring build call carry cause change check choose cite claim clear close collect collide
    come commit compare compile complete compute concern conflict conform connect consist contain continue contradict contribute convict
    convince copy count cover create cut deal decide decode define depend describe determine deviate die differ disagree draft draw drop
    encode end ensure escape exchange exclude execute exist expand expect explain export expose extend fail fall feed fetch fill filter
    find finish fit flow fold follow forbid forge form format free gain gather get give go grow guarantee halve hand hang happen hash
    hear help hide hold import include indicate insert install interpret invent join judge keep know lack last lead leak learn leave let
    lie limit link list listen live load lock log look lose lower make mangle map mark match matter mean measure meet mend mention merge
    miss mix move name need note occur offer omit open outlive owe own part pass pay permit pick place play point prefer prepare present
    print promise protect prove provide put quote raise reach read realise receive record refer refuse reject remain remember remove
    repeat replace replay reply report represent require reserve rest restore return reveal rise run say search see seem select send
    separate serve set settle share show sign skip sleep sort speak spell split spoil stand start state stay step stop store submit
    subtract succeed suffice suit sum suspect swap tail take teach tell test think tick touch transfer translate travel treat trust try
    turn understand use vanish verify vote wait walk want warn watch weaken win wish work wrap write yield
    """.split()
)
# Forms in -s of no verb
NOT_FORMS = set("access across address always as his its less perhaps process this us".split())
# Words that make a noun of a verb's form: of either form, of that without -s ("each name"), and of that in -s ("two names")
BEFORE_NOUN = set(
    """
    a about against an as at bad between by common different empty equal fewer following for from further good half her his in into its
    long more my new of old on our over own per private public several short such the their through under whose with within without
    wrong your
    """.split()
)
BEFORE_ONE = set("another any each either every first last neither next no one same second third this whatever".split())
BEFORE_MANY = set("all both eight few five four many most nine other seven six some ten these those three two".split())
# Verbs that may have "of" after them; of any other form "of" makes a noun
WITH_OF = set("ask come consist hear hold know make quote say speak think write".split())
INFINITIVE = set("can can't cannot could did do does doesn't don't let may might must not should to will would".split())
# Words after which a form in -ed is a verb, and those around which it is none
SUBJECT = set("all also both code everybody he it never nobody others she somebody that they we which who you".split())
PARTICIPLE = set("as and at be been by from in of or to under with , ; : . ( ) !".split()) | {""}
# Words that begin a clause that is no sentence by itself. "That" does too, unless it comes after a word of the first of the two lists that
# follow, or before one of the second: there it stands for something.
CLAUSE = set("although because if unless whatever when whenever wherever whether which while who whoever whom whose".split())
BEFORE_PRONOUN = CLAUSE | set(
    """
    about above after against as at before below between beyond by do does except for from in into is like of on since than to under
    until with within without
    """.split()
)
AFTER_PRONOUN = set(", ; : . ) of".split())

# Texts that have no verb, as the rule has to see
FRAGMENTS = (
    "All under one directory and one program.",
    "The definitions that contracts cite.",
    "Two nodes of Tally, each with a key, and the directory that lists them.",
    "A list in tiers, and not a tree of the kit.",
    "Names of nodes, to compare.",
    "A proof to hand over, in one file.",
)
# Sentences, as the rule has to see too
WHOLE = (
    "Each names the key that it uses.",
    "Compare the program by telephone.",
    "If a node deviates, the store exposes it.",
    "That is no proof.",
    "CODE writes what it found.",
)

WORD = re.compile(r"[\w'’-]+|[,;:.()?!]")


def base_forms(word):
    """The word, and each word of which it could be the form in -s."""
    yield word
    if word.endswith("ies"):
        yield word[:-3] + "y"
    if word.endswith("es"):
        yield word[:-2]
    if word.endswith("s") and word not in NOT_FORMS:
        yield word[:-1]


def is_verb(before, word, after):
    """Whether a word is a finite verb, by the words beside it."""
    bases = set(base_forms(word)) & VERBS
    if word in FINITE:
        return before not in INFINITIVE or word in ("is", "are", "was", "were", "has", "had")
    if bases:
        is_noun = before in BEFORE_NOUN | (BEFORE_ONE if word in VERBS else BEFORE_MANY) or (after == "of" and not bases & WITH_OF)
        return not is_noun and before not in INFINITIVE
    if word.endswith("ed") and {word[:-1], word[:-2], word[:-3], word[:-3] + "y"} & VERBS:
        is_participle = before in BEFORE_NOUN | BEFORE_ONE | BEFORE_MANY | INFINITIVE | FINITE | PARTICIPLE or after in PARTICIPLE
        return before in SUBJECT or not is_participle
    return False


def begins_clause(before, word, after):
    """Whether a word begins a clause that is no sentence by itself."""
    if word != "that":
        return word in CLAUSE
    stands_for_something = before in BEFORE_PRONOUN or after in AFTER_PRONOUN or (before in (",", ";", ":", "(") and after in FINITE)
    return before != "" and not stands_for_something


def has_verb(sentence):
    """Whether a sentence has a verb, beside those of its clauses."""
    words = ["", *WORD.findall(sentence.lower()), "."]
    places = list(zip(words, words[1:], words[2:]))
    return sum(is_verb(*place) for place in places) > min(sum(begins_clause(*place) for place in places), 3)


def plain(text):
    """A text without its marks and its label: code is one word, and a link is its words."""
    text = re.sub(r"^\*\*(?:[^*\s]+ ?){1,3}[.:]\*\*:? *(?=\S)", "", text)
    text = re.sub(r"!\[[^\]]*\]\([^)]*\)", "", text)
    text = re.sub(r"`` .*? ``|`[^`\n]+`", "CODE", text)
    text = re.sub(r"\[([^\]]*)\]\([^)]*\)", r"\1", text)
    return re.sub(r"\*\*|(?<!\w)[*_](?=\S)|(?<=\S)[*_](?!\w)", "", text)


def sentences_of(text):
    """The sentences of a paragraph or of an item."""
    parts = re.split(r"(?<=[.!?])[\")]?\s+(?=[\"(]*(?:[A-Z0-9]|CODE))", text.strip())
    return [part for part in parts if any(letter.isalnum() for letter in part)]


def texts_of(page):
    """The paragraphs and items of a page, each with its line, and whether it is an item below a line that ends with a colon."""
    text = (TOP / page).read_text(encoding="utf-8")
    for left_out in (MADE, CODE):
        text = left_out.sub(lambda found: "\n" * found[0].count("\n"), text)
    is_led, is_item, begun, gathered = False, False, 0, []
    for number, line in enumerate([*text.split("\n"), ""], 1):
        item = re.match(r"\s*(?:[-*]|\d+\.) +(.*)", line)
        is_other = re.match(r"#|\||<!--", line)
        if gathered and (item or is_other or not line.strip()):
            whole, gathered = " ".join(gathered), []
            yield begun, whole, is_item and is_led
            is_led = is_led if is_item else whole.endswith(":")
        if is_other:
            is_led = False
        elif line.strip():
            if not gathered:
                begun, is_item = number, bool(item)
            gathered.append(item[1] if item else line.strip())


def faults_of(page):
    """What is wrong with the sentences of a page, and how many there are."""
    faults, count = [], 0
    for number, text, is_led in texts_of(page):
        sentences = sentences_of(plain(text))
        if text.startswith("_") and number < 7:
            sentences = sentences[1:]
        count += len(sentences)
        for sentence in sentences:
            long = sum(any(letter.isalnum() for letter in word) for word in sentence.split())
            goes_on = is_led and len(sentences) == 1 and long <= SHORT and re.match(r"[a-z]|CODE", sentence)
            if long > MOST:
                faults.append(f"{page}:{number}: {long} words: {sentence}")
            elif not goes_on and sentence != "CODE:" and not has_verb(sentence):
                faults.append(f"{page}:{number}: no verb: {sentence}")
    return faults, count


def main():
    pages = sys.argv[1:] or sorted(path.relative_to(TOP).as_posix() for pattern in PAGES for path in TOP.glob(pattern))
    found = [faults_of(page) for page in pages]
    faults = [fault for some, _ in found for fault in some]
    faults += [f"the rule takes this for a sentence: {text}" for text in FRAGMENTS if has_verb(text)]
    faults += [f"the rule takes this for none: {text}" for text in WHOLE if not has_verb(text)]
    count = sum(count for _, count in found)
    print(*faults, sep="\n", end="\n" if faults else "")
    if not faults:
        print(f"{len(pages)} pages have {count} sentences, each with a verb and at most {MOST} words")
    return 1 if faults or not count else 0


if __name__ == "__main__":
    sys.exit(main())
