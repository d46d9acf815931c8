"""Mutants: edits that make a body or a definition wrong, and how a crate is checked with some of them."""
import os
import re
import shutil
import subprocess

TOP = os.path.dirname(os.path.dirname(os.path.dirname(os.path.realpath(__file__))))
FUNCTION = re.compile(r"(\s*)(?:pub(?:\([a-z ]+\))? )?(?:const )?fn (\w+)")
# What a check says of a function's own proof, and of a proof file. A proof that names what the mutant took away says less.
AT_FUNCTION = r"^(?:note: )?(?:\./)?{file}:(\d+):\d+: (?:error|it is not proved)"
AT_PROOF = r"^(?:\./)?proofs/{folder}{function}/\w+\.antt:\d+:\d+: error.*$"
NAMES_ALONE = re.compile(r"has no field|is not in scope|has no `|was not admitted")


def read(path):
    with open(path, encoding="utf-8") as text:
        return text.read()


def opening_of(lines, first, margin):
    """The number of the line that opens the body of the function whose first line that is, or None if it has none."""
    for at in range(first, len(lines)):
        if lines[at] == margin + "{" or lines[at].endswith("{}"):
            return at
        if lines[at].endswith(" {") and (at == first or lines[at].startswith(margin + ")")):
            return at
        if lines[at].endswith(";"):
            return None
    return None


def functions_of(text):
    """Of each function of a file that has a body: its name, and the numbers of its first line, which may be an attribute, of the line
    that opens its body, and of its last."""
    lines = text.split("\n")
    found = []
    for first, line in enumerate(lines):
        head = FUNCTION.match(line)
        opening = opening_of(lines, first, head[1]) if head else None
        if opening is not None:
            last = next((at for at in range(opening, len(lines)) if lines[at] == head[1] + "}"), opening)
            # What is not proved is reported at the first attribute.
            while first and lines[first - 1].startswith(head[1] + "#["):
                first -= 1
            found.append((head[2], first, opening, last))
    return found


def function_at(text, number, in_body):
    """The name of the function at whose line the line of that number stands, or in whose body, or None."""
    for name, first, opening, last in reversed(functions_of(text)):
        if (opening if in_body else first - 1) < number < last:
            return name
    return None


class Mutant:
    """An edit of a file in tools/plants: what it changes, each as (file, old text, new text)."""

    def __init__(self, crate, name):
        self.name = name
        self.changes = []
        for line in read(f"{TOP}/tools/plants/{crate}/{name}.edit").split("\n"):
            if line.startswith("file: "):
                file = line[6:]
            elif line.startswith("old: "):
                old = line[5:]
            elif line.startswith("new:"):
                self.changes.append((file, old, line[5:]))
        # (file, name) of the functions that it changes, if it changes bodies alone
        self.functions = self.bodies(f"{TOP}/crates/{crate}")

    def bodies(self, folder):
        found = set()
        for file, old, _ in self.changes:
            text = read(f"{folder}/{file}")
            function = function_at(text, text[:text.index(old)].count("\n"), True) if old in text and file.endswith(".rt") else None
            if function is None:
                return None
            found.add((file, function))
        return found

    def apply(self, folder):
        """Makes the edit; False if it does not fit, as where another one has changed the same text."""
        texts = {file: read(f"{folder}/{file}") for file, _, _ in self.changes}
        for file, old, new in self.changes:
            if texts[file].count(old) != 1:
                return False
            texts[file] = texts[file].replace(old, new)
        for file, text in texts.items():
            with open(f"{folder}/{file}", "w", encoding="utf-8") as to:
                to.write(text)
        return True


class Bench:
    """A folder in which a crate stands alone, beside the libraries of the crates below it. A check in it begins with what a check
    of the crate proved (out/check-one)."""

    def __init__(self, crate):
        self.crate = crate
        self.folder = f"{TOP}/out/plants/{crate}"
        self.sources = f"{self.folder}/crates/{crate}"

    def prepare(self, mutants):
        """Makes the folder anew, with these mutants: those that fit together."""
        self.remove()
        os.makedirs(f"{self.folder}/tools")
        shutil.copy(f"{TOP}/tools/check-one", f"{self.folder}/tools")
        shutil.copy(f"{TOP}/crates.txt", self.folder)
        shutil.copytree(f"{TOP}/crates/{self.crate}", self.sources, ignore=shutil.ignore_patterns("out"))
        for name in os.listdir(f"{TOP}/crates"):
            if name != self.crate and os.path.isdir(f"{TOP}/crates/{name}/out/rlib"):
                os.makedirs(f"{self.folder}/crates/{name}")
                os.symlink(f"{TOP}/crates/{name}/out", f"{self.folder}/crates/{name}/out")
        # What was proved is linked, since a check replaces such a file and changes none.
        shutil.copytree(f"{TOP}/out/check-one/{self.crate}", f"{self.folder}/out/check-one/{self.crate}",
                        copy_function=lambda one, other: os.link(one, other) if one.endswith(".oantt") else shutil.copy2(one, other))
        return [mutant for mutant in mutants if mutant.apply(self.sources)]

    def remove(self):
        shutil.rmtree(self.folder, ignore_errors=True)

    def check(self, mutants):
        """The mutants of these that fit together, and the status and the output of a check of the crate with them."""
        fitting = self.prepare(mutants)
        return fitting, *checked(self.folder, self.crate)

    def check_together(self, mutants):
        """The same, without those that are no code."""
        while mutants:
            mutants, status, output = self.check(mutants)
            if status != 1 or "logic=not-proved" in output:
                return mutants, status, output
            bad = self.rejected(output)
            left = [one for one in mutants if not one.functions & bad]
            if len(left) == len(mutants):
                raise SystemExit(f"{output[:3000]}\n{self.crate} could not be checked with these mutants")
            mutants = left
        return [], 0, ""

    def rejected(self, output):
        """The functions in which something stands that is no code, or that the borrow checker refuses."""
        places = re.findall(r"^(?:\./)?(src/\S+\.rt):(\d+):\d+: error", output, re.M)
        return {(file, function_at(read(f"{self.sources}/{file}"), int(line) - 1, False)) for file, line in places}

    def is_alone(self, function):
        """Whether no other function of the crate has this name."""
        files = [f"{folder}/{name}" for folder, _, names in os.walk(f"{self.sources}/src") for name in names if name.endswith(".rt")]
        return sum(name == function for file in files for name, *_ in functions_of(read(file))) == 1

    def refusal(self, mutant, output):
        """Whether the output refuses the mutant of bodies at each function that it changes; and whether by names alone."""
        refused, by_names = True, False
        for file, function in mutant.functions:
            text = read(f"{self.sources}/{file}")
            lines = re.findall(AT_FUNCTION.format(file=re.escape(file)), output, re.M)
            own = any(function_at(text, int(line) - 1, False) == function for line in lines)
            # A method's proof may be in the module of its type, which is another file's. Then only its name tells whose it is.
            folder = r"(?:\w+/)*" if self.is_alone(function) else re.escape(file[4:-3]) + r"/(?:\w+/)?"
            proofs = re.findall(AT_PROOF.format(folder=folder, function=function), output, re.M)
            by_names = by_names or (not own and bool(proofs) and all(NAMES_ALONE.search(line) for line in proofs))
            refused = refused and (own or bool(proofs))
        return refused, by_names


def checked(folder, crate):
    """The status and the output of tools/check-one there. A check that takes long begins what it prints on the way with `so far: `."""
    ran = subprocess.run([f"{folder}/tools/check-one", crate], stdout=subprocess.PIPE, stderr=subprocess.STDOUT, text=True)
    return ran.returncode, re.sub(r"^so far: ", "", ran.stdout, flags=re.M)


def checked_as_it_is(crate):
    status, output = checked(TOP, crate)
    if status != 0:
        raise SystemExit(f"{output}\n{crate} is not proved as it is")


def groups_of(mutants):
    """The mutants of bodies in groups, of which no two change one function: no proof rests on the body of another function."""
    groups = []
    for mutant in mutants:
        group = next((one for one in groups if not any(mutant.functions & other.functions for other in one)), None)
        if group is None:
            groups.append([mutant])
        else:
            group.append(mutant)
    return groups
