"""What the legends have to say."""
# Of the states, by what is drawn.
STATES = {"FF": "new", "70": "updating", "10": "on trial, exchanged back unless confirmed", "00": "confirmed, it stays",
          "30": "spent, its swap is over"}
FLAGS = {"F": "new", "7": "swapping, UPDATE's is in SWAP", "3": "backup, BOOT's is in UPDATE",
         "0": "updated, UPDATE's is in BOOT"}


def listed(meanings):
    return "; ".join(f"{label} {text}" for label, text in meanings.items())


def check_legends(text, svg):
    """text: as it is printed; svg: what is read in the SVG, each label with its meaning."""
    states = f"state {listed(STATES)}; .. all FF; with ? not closed"
    joined = " ".join(text.split("\n\n")[0].split())
    assert f" {states} flags sector 0's first; {listed(FLAGS)} > just written" in joined, text
    assert {*STATES.items(), *FLAGS.items()} <= svg, svg
