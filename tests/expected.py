"""What a model's command does with the outputs that it reckons: writes them, or compares them with the programs' expected ones."""
import difflib
import pathlib
import sys

ROOT = pathlib.Path(__file__).resolve().parent.parent


def differs(name, lines, model):
    """Prints how a file differs from the lines; whether it does."""
    path = ROOT / name
    found = path.read_text().splitlines(keepends=True) if path.exists() else []
    diff = list(difflib.unified_diff(found, lines, name, model))
    sys.stdout.writelines(diff)
    return bool(diff)


def settle(model, usage, outputs, arguments):
    """The outputs, by file: written with --write, else compared; exit status 1 where one differs."""
    if arguments not in ([], ["--write"]):
        sys.exit(usage)
    texts = {name: [line + "\n" for line in lines] for name, lines in outputs.items()}
    if arguments:
        for name, lines in texts.items():
            (ROOT / name).write_text("".join(lines))
        print(f"{model}: written, {len(texts)} of the programs' outputs")
    elif any([differs(name, lines, model) for name, lines in texts.items()]):
        sys.exit(1)
    else:
        print(f"{model}: agrees with {len(texts)} of the programs' outputs")
