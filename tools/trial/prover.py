"""A crate of lemmas, beside a copy of the repository's crates, given to the prover."""
import os
import re
import shutil
import subprocess

import terms


def crates_of_pass(repository):
    """The crate `pass` and all that it rests on, those below first."""
    with open(os.path.join(repository, "crates.txt")) as lines:
        named = dict(re.findall(r"^(\w+):([^#\n]*)", lines.read(), re.M))
    found = []

    def find(crate):
        for below in named[crate].split():
            find(below)
        if crate not in found:
            found.append(crate)

    find("pass")
    return found


class Prover:
    """`folder` takes the copy; `rt` is the toolchain's command."""

    def __init__(self, repository, folder, rt):
        self.folder, self.rt = folder, rt
        crates = crates_of_pass(repository)
        for crate in crates:
            for part in "src", "specs", "proofs":
                if os.path.isdir(os.path.join(repository, "crates", crate, part)):
                    shutil.copytree(os.path.join(repository, "crates", crate, part), os.path.join(folder, "crates", crate, part))
        with open(os.path.join(repository, "crates.txt")) as lines:
            kept = [line for line in lines if line.split(":")[0] in crates]
        with open(os.path.join(folder, "crates.txt"), "w") as lines:
            lines.write("".join(kept) + "trial: %s\n" % " ".join(crates))
        self.leave_out_scripts()
        self.put("src", "lib.rt", "#![tactic(auto)]\n// Lemmas about cases.\n")
        with open(os.path.join(os.path.dirname(__file__), "seen.txt")) as source:
            self.seen = source.read().replace("UNFOLDABLE", " ".join(terms.unfoldable(os.path.join(folder, "crates"), crates)))

    def leave_out_scripts(self):
        """A definition that fails the lemmas about scripts is tried all the same."""
        shutil.rmtree(os.path.join(self.folder, "crates", "pass", "proofs"))

    def put(self, part, name, text):
        folder = os.path.join(self.folder, "crates", "trial", part)
        os.makedirs(folder, exist_ok=True)
        with open(os.path.join(folder, name), "w") as file:
            file.write(text)

    def refused(self, modules):
        """The lemmas that do not hold, each a module's name and its own with the prover's words. `modules` are texts by name."""
        shutil.rmtree(os.path.join(self.folder, "crates", "trial", "specs"), ignore_errors=True)
        self.put("specs", "Seen.antt", self.seen)
        self.put("specs", "Lib.antt", "".join("pub mod %s\n" % m for m in ["Seen", *modules]))
        for name, text in modules.items():
            self.put("specs", name + ".antt", terms.HEAD + text)
        run = subprocess.run([self.rt, "check", "--jobs", "1"], cwd=os.path.join(self.folder, "crates", "trial"),
                             stdout=subprocess.PIPE, stderr=subprocess.STDOUT, text=True)
        found = re.findall(r"specs/(\w+)\.antt:\d+:\d+: error: `([\w']+)`: (.*?)(?=^\S)", run.stdout + "\n.", re.M | re.S)
        proved = run.returncode == 0 and "logic=proved" in run.stdout
        if proved == bool(found) or len(found) != run.stdout.count(": error: "):
            raise RuntimeError("the prover gave no answer:\n" + run.stdout[-5000:])
        return {(module, name): words for module, name, words in found}
