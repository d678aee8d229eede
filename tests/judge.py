"""What the scripts in Python share: rows that pass or fail, how a failing one is shown, and the last line."""
passed = 0
failed = 0
# A failing row's values are cut at so many characters.
SHOWN = 3000


def shown(value):
    text = repr(value)
    return text if len(text) <= SHOWN else "%s.. (%d characters)" % (text[:SHOWN], len(text))


def judge(words, seen, wanted):
    """Passes where what was seen is what was wanted. `words` says what was tried: a command line, or a name."""
    global passed, failed
    if seen == wanted:
        passed += 1
        return
    failed += 1
    print("FAILED: %s\n  seen:   %s\n  wanted: %s" % (words, shown(seen), shown(wanted)), flush=True)


def holds(is_so, words, seen=""):
    """Passes where something is so. `seen` is what there was, as a text, where that says more."""
    global passed, failed
    if is_so:
        passed += 1
        return
    failed += 1
    print("FAILED: %s\n  seen:   %s\n  wanted: that this is so" % (words, seen or "not so"), flush=True)


def passes(count):
    """So many more rows have passed."""
    global passed
    passed += count


def failures():
    """How many rows have failed until now."""
    return failed


def finish():
    """Prints the last line. Returns the script's status."""
    print("%d passed, %d failed" % (passed, failed))
    return 1 if failed or not passed else 0
