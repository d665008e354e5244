"""How long a clause and a line may be, so that a contract is read at one glance."""
from checking.crates import TOP, read, show

CLAUSE = 250
LINE = 120
PROOF_LINE = 160


def long_clauses(contracts):
    """Clauses of src/ between their brackets, as they stand there, with line breaks and indentation."""
    found = []
    for contract in contracts:
        for clause in contract.clauses:
            body = clause.text[clause.text.index("{") + 1:clause.text.rindex("}")].strip()
            if len(body) > CLAUSE:
                found.append(f"{show(contract.path)}: the clause {contract.name}: {clause.name or 'without a name'} has "
                             f"{len(body)} characters, above {CLAUSE}")
    return found


def long_lines():
    """Lines of src/ and specs/, and those of proofs/."""
    found = []
    crates = TOP / "crates"
    read_often = [*crates.glob("*/src/**/*.rt"), *crates.glob("*/specs/**/*.antt")]
    for path, most in sorted([(path, LINE) for path in read_often] + [(path, PROOF_LINE) for path in crates.glob("*/proofs/**/*.antt")]):
        for number, line in enumerate(read(path).splitlines(), 1):
            if len(line) > most:
                found.append(f"{show(path)}:{number}: a line of {len(line)} columns, above {most}")
    return found


def all_failures(contracts):
    return long_clauses(contracts) + long_lines()
