"""How results look, as text and in a notebook."""
import xml.etree.ElementTree as tree

import ddserve
from ddserve import Deal, Seat, Solver, Strain, Table

DEAL = "N:92.K97.A3.QJT632 T83.AQJ84.Q4.A97 AKQJ.65.K872.K85 7654.T32.JT965.4"
DIAGRAM = """\
              ♠ 92
              ♥ K97
              ♦ A3
              ♣ QJT632
♠ 7654                      ♠ T83
♥ T32                       ♥ AQJ84
♦ JT965                     ♦ Q4
♣ 4                         ♣ A97
              ♠ AKQJ
              ♥ 65
              ♦ K872
              ♣ K85"""
# What the repository's README says of this deal: with clubs as trumps three leads give the defence three tricks.
LEADS = DIAGRAM + "\n\nClubs are trumps, West to play\n 3 tricks: ♥T  ♥3 ♥2"


def parts(html: str) -> "tree.Element":
    """The elements of a well-formed text."""
    return tree.fromstring(f"<div>{html}</div>".replace("&nbsp;", " ").replace("&emsp;", " ").replace("<br>", "<br/>"))


def words(html: str) -> str:
    return "".join(parts(html).itertext())


def test_a_deal() -> None:
    assert str(Deal.of(DEAL)) == DIAGRAM
    assert "♣ QJT632" in words(Deal.of(DEAL)._repr_html_())
    assert "♠ -" in str(Deal.of("N:.A.. .K.. .Q.. .J.."))


def test_leads(program: str) -> None:
    with Solver(program) as solver:
        leads = solver.leads(DEAL, "C", "S", solutions=2)
        every = solver.leads(DEAL, "C", "S")
    assert str(leads) == LEADS
    assert [str(card) for card in leads.best] == ["HT", "H3", "H2"]
    shown = every._repr_html_()
    # Each of West's thirteen cards has its number, the best three in bold.
    west = [it for it in parts(shown).iter("td") if "T" in "".join(it.itertext()) and "J" in "".join(it.itertext()) and it.findall(".//b")]
    bold = [it.text for it in west[0].iter("b")]
    assert bold == ["3", "3", "3"]
    assert len(west[0].findall(".//span/span/..")) >= 13


def test_a_position_within_a_trick(program: str) -> None:
    with Solver(program) as solver:
        found = solver.solve("N:A... ... ... ...", "NT", "E", ["SK", "SQ", "SJ"])
        none = solver.solve("N:32... 65... AQ... K4...", "NT", "N", solutions=2, target=2)
    assert str(found).endswith("Notrump, North to play, on ♠K ♠Q ♠J\n 1 trick: ♠A")
    assert str(none).endswith("Notrump, North to play. Cards for 2 tricks or more\nNo card.")


def test_a_table(program: str) -> None:
    deal = "N:J6.72.AQ7643.AJ7 Q9842.Q854.T.K42 AT75.AT9.KJ8.T83 K3.KJ63.952.Q965"
    with Solver(program) as solver:
        table = solver.table(deal)
        par = solver.par(table, "None", dealer="N")
    assert str(table).endswith(
        """
    NT   ♠   ♥   ♦   ♣
N    9   7   6  10   7
E    3   6   7   3   6
S    9   7   6  10   7
W    3   6   7   3   6"""
    )
    assert ["".join(cell.itertext()) for cell in parts(table._repr_html_()).iter("th")] == ["", "NT", "♠", "♥", "♦", "♣", "N", "E", "S", "W"]
    assert str(par).endswith("\n\nPar: NS 400, 3NT NS =")
    assert "Par: NS 400, 3NT NS =" in words(par._repr_html_())


def test_a_table_is_listed_by_its_strains() -> None:
    rows = ((7, 6, 7, 6), (6, 7, 6, 7), (10, 3, 10, 3), (7, 6, 7, 6), (9, 3, 9, 3))
    table = Table(rows, Deal.of(DEAL))
    assert list(table) == [row for row in table] == list(rows) and len(table) == 5
    assert {strain: row[Seat.NORTH] for strain, row in zip(Strain, table)} == {strain: table[strain, "N"] for strain in Strain}


def test_par_of_results_alone(program: str) -> None:
    with Solver(program) as solver:
        # By the definition: the hearts of North and South go down one doubled, and all pass where nobody makes a contract.
        assert str(solver.par([[6] * 4] * 5, "All", dealer="E")) == "Par: passed out"
        doubled = solver.par([[7, 6, 7, 6], [10, 3, 10, 3], [6, 6, 6, 6], [6, 6, 6, 6], [6, 6, 6, 6]], "None", dealer="W")
    assert doubled.score > 0


def test_a_play(program: str) -> None:
    with Solver(program) as solver:
        play = solver.play("N:32... K4... AQ... 65...", "NT", "N", ["S2", "S4", "SA", "S5"])
    assert play.declarer == ddserve.Seat.WEST
    # The repository's README: South's ace cost a trick.
    assert [(step.seat.letter, str(step.card), step.cost) for step in play.mistakes] == [("S", "SA", 1)]
    assert str(play).endswith("West declares in notrump: 0 tricks before the lead, 1 after 4 cards\n 1  N ♠2 0    E ♠4 0    S ♠A 1!   W ♠5 1")
    shown = parts(play._repr_html_())
    assert [it.text for it in shown.iter("title")] == ["S ♠A cost 1"]
