"""The optimum of a linear program by glpsol, another author's solver."""
import os
import shutil
import subprocess
import sys
import tempfile


def optimum(program):
    """The optimum as a whole number. It is exact up to 15 digits, which is what glpsol prints."""
    if not shutil.which("glpsol"):
        sys.exit("glpsol is not there: it is in Debian's package glpk-utils")
    with tempfile.TemporaryDirectory() as folder:
        model, said = os.path.join(folder, "model.lp"), os.path.join(folder, "said")
        with open(model, "w", encoding="ascii") as file:
            file.write(program.to_lp())
        subprocess.run(["glpsol", "--lp", model, "-w", said], stdout=subprocess.DEVNULL, check=True)
        with open(said, encoding="ascii") as file:
            line = next(line for line in file if line.startswith("s bas "))
    *_, primal, dual, value = line.split()
    if (primal, dual) != ("f", "f"):
        sys.exit("glpsol found no optimum")
    return round(float(value))


def compare(name, claimed, program):
    """Prints both values, and gives whether they are equal."""
    found = optimum(program)
    print(f"{name}: claimed {claimed}, glpsol {found}, {'equal' if claimed == found else 'DIFFERENT'}")
    return claimed == found
