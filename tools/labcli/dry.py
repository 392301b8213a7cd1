"""A dry run: what a command would do, tried on a copy of the folder."""


def dry(lab, do):
    """Does on a copy what it is given, and tells what devices would hold and no more hold."""
    with lab.copy() as copied:
        before = copied.tables()
        status = do(copied)
        after = copied.tables()
    gone, come = sorted(before - after), sorted(after - before)
    if lab.json:
        import json
        print(json.dumps({"replies": copied.replies, "status": status, "gone": gone, "come": come}, indent=1))
        return status
    print("would change" if gone or come else "would change nothing")
    for sign, lines in (("-", gone), ("+", come)):
        for line in lines:
            print(f"  {sign} {line}")
    return status
