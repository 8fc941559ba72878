"""What crates stand on, for the scripts that go along them. A graph has of each crate those that it stands on itself."""


def below(crates, name):
    """All that a crate stands on, directly or not."""
    found = set()
    for it in crates[name]:
        if it not in found:
            found |= {it} | below(crates, it)
    return found
