"""How the scripts beside this one print rows: `NAME: NOTION.CALL WORD.. => ANSWER`, bytes in hex and `-` for none."""


def field(value):
    return value.hex() or "-" if isinstance(value, bytes) else str(value)


def row(name, call, *words, gives):
    assert ": " not in name
    print(f"{name}: {call} {' '.join(field(word) for word in words)} => {field(gives)}")


def remark(*lines):
    print()
    for line in lines:
        print(f"# {line}")
