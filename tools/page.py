"""What a page shows: each command behind `$ `, with what stands below it."""


def transcripts(path, left_out=()):
    """each command of a page with the lines that it prints; lines that begin with one of `left_out` do not count"""
    calls = []
    with open(path, encoding="utf-8") as file:
        lines = [line[4:] if line.startswith("    ") else None for line in file.read().splitlines()]
    for line in lines:
        if line is None:
            calls.append(None)
        elif line.startswith("$ "):
            calls.append([line[2:], ""])
        elif calls and calls[-1] and calls[-1][0].endswith("\\"):
            calls[-1][0] = calls[-1][0][:-1] + line.strip()
        elif calls and calls[-1] and not line.startswith(tuple(left_out)):
            calls[-1][1] += line + "\n"
    return [call for call in calls if call]
