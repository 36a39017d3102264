"""Program crates that time a library of the repository: each is made in a folder of its own, upon copies of the crates below it.

They are proved and built by `rt ci`, which takes the crates below from what an earlier run on this machine kept. It also runs the program, which ends with 1
on no input."""
import os
import shutil
import subprocess

from measure import Failed


def listed(repository, crates):
    """The lines of crates.txt of these crates."""
    with open(f"{repository}/crates.txt", encoding="utf-8") as file:
        return "".join(line for line in file if line.partition(":")[0] in crates)


def built(folder, repository, name, source, crates, *of_kit):
    """The path of the built program; the crates that it stands on are proved on the way, where they aren't yet."""
    os.makedirs(f"{folder}/crates/{name}/src")
    for crate in crates:
        shutil.copytree(f"{repository}/crates/{crate}", f"{folder}/crates/{crate}", ignore=shutil.ignore_patterns("out", "must-fail"))
    shutil.copy(f"{repository}/HANDLES", f"{folder}/HANDLES")
    own = f"{name} status=1: {' '.join((*crates, *of_kit))}\n"
    for path, text in (("crates.txt", listed(repository, crates) + own), (f"crates/{name}/src/main.rt", source)):
        with open(f"{folder}/{path}", "w", encoding="utf-8") as file:
            file.write(text)
    subprocess.run(["rt", "fmt"], cwd=f"{folder}/crates/{name}", stdin=subprocess.DEVNULL, capture_output=True, check=False)
    done = subprocess.run(["rt", "ci"], cwd=folder, stdin=subprocess.DEVNULL, capture_output=True, text=True, check=False)
    program = f"{folder}/crates/{name}/out/{name}"
    if not os.path.exists(program):
        raise Failed(f"the timing program was not built: {(done.stdout + done.stderr)[-2000:]}")
    return program
