"""Each crate has a README, which says what is proved, what is only tested and what is neither. What it names exists."""
import re

import pytest

from support.documents import CRATES, ROOT, prose, sentences, table_rows, ticked, without_tables

MOST_BYTES = 3_000
DEFINED = (r"(?:fn|struct|enum|trait|type|const|static|ensures|requires|ghost|mod)\s+{0}\b"
           r"|(?m:^\s*(?:pub |abbrev |unfoldable |opaque |record |data )*{0} :)")
OWNER, FUNCTION = re.compile(r"(?:pub )?(?:impl|trait)\b.*"), re.compile(r"( *)(?:pub(?:\(crate\))? )?fn (\w+)")
CLAUSE = re.compile(r"\s*(?:ensures|requires) (\w+) \{|\s*ghost (\w+)")


class Readme:
    def __init__(self, crate):
        self.folder = ROOT / "crates" / crate
        self.text = (self.folder / "README.md").read_text(encoding="utf-8")
        self.sections = dict(re.findall(r"(?ms)^## (.+?)\n(.*?)(?=^## |\Z)", self.text))

    def section(self, title):
        assert title in self.sections, f"it has no section {title}"
        return self.sections[title]

    def named_in(self, title):
        """What the first column of a section's table names."""
        return [name for row in table_rows(self.section(title)) for name in ticked(row[0])]

    def defines(self, name):
        """Whether the crate's sources or definitions have this name, of a type's function by both of its names."""
        files = [*self.folder.glob("src/**/*.rt"), *self.folder.glob("specs/**/*.antt")]
        owner, _, last = name.rpartition("::")
        return any(re.search(DEFINED.format(re.escape(last)), text) and re.search(rf"\b{owner.rpartition('::')[2]}\b", text)
                   for text in (it.read_text(encoding="utf-8") for it in files))

    def clauses(self):
        """The names of the clauses of each function, with the line of the `impl` or the trait that it is in."""
        found = []
        for path in self.folder.glob("src/**/*.rt"):
            owner = ""
            for line in path.read_text(encoding="utf-8").splitlines():
                if OWNER.fullmatch(line):
                    owner = line
                elif function := FUNCTION.match(line):
                    found.append((function[2], owner if function[1] else "", set()))
                elif (clause := CLAUSE.match(line)) and found:
                    found[-1][2].add(clause[1] or clause[2])
        return found

    def promised(self):
        """Each contract in the table of what is proved, with the names of its clauses that the row speaks of."""
        for row in table_rows(self.section("Proved")):
            for part in row[0].split(";"):
                contracts, _, clauses = part.partition(": ")
                yield from ((contract, ticked(clauses)) for contract in ticked(contracts))

    def promises(self):
        """How many are proved, tested and neither."""
        return len(table_rows(self.section("Proved"))), len(table_rows(self.section("Tested"))), len(re.findall(r"(?m)^- ", self.section("Neither")))


@pytest.fixture(params=CRATES)
def readme(request):
    return Readme(request.param)


def test_each_contract_that_it_names_is_in_the_crate(readme):
    assert [name for name in readme.named_in("Proved") if not readme.defines(name)] == []


def test_each_function_that_it_names_has_the_clauses_that_it_names(readme):
    functions = readme.clauses()
    lacking = []
    for contract, clauses in readme.promised():
        owner, _, name = contract.rpartition("::")
        named = [has for function, inside, has in functions if function == name and (owner in inside if owner else not inside)]
        lacking += [(contract, clause) for clause in clauses if named and not any(clause in has for has in named)]
    assert lacking == []


def test_each_test_that_it_names_exists(readme):
    tests = "".join(it.read_text(encoding="utf-8") for it in [*ROOT.glob("crates/library_tests/src/**/*.rt"), *ROOT.glob("tests/**/*.py")])
    named = readme.named_in("Tested")
    assert [it for it in named if not (re.search(rf"\b(?:fn|def) {re.escape(it)}\b", tests) or (("/" in it) and (ROOT / it).exists()))] == []


def test_it_names_each_wrong_body_that_is_refused(readme):
    assert [it.stem for it in readme.folder.glob("must-fail/*.edit") if f"`{it.stem}`" not in readme.text] == []


def test_each_file_that_it_names_exists(readme):
    named = re.findall(r"`((?:src|specs|proofs|must-fail|tests|crates|examples|docs)/[\w./-]*)`", readme.text)
    assert [it for it in named if not ((readme.folder / it).exists() or (ROOT / it).exists())] == []


def test_it_is_short_apart_from_its_tables(readme):
    assert len(without_tables(readme.text).encode()) <= MOST_BYTES


def test_its_sentences_are_short(readme):
    assert [it for it in sentences(prose(readme.text)) if len(it.split()) > 35] == []


def test_the_first_page_says_how_many_promises_are_proved_tested_and_neither():
    proved, tested, neither = (sum(of_one) for of_one in zip(*(Readme(it).promises() for it in CRATES)))
    said = f"{proved} of its promises are proved, {tested} are only tested, and {neither} are neither"
    assert said in " ".join((ROOT / "README.md").read_text(encoding="utf-8").split())
