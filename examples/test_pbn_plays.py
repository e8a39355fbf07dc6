"""Tests of pbn_plays.py: python3 -m unittest discover examples"""

import os
import sys
import unittest

sys.path.insert(0, os.path.dirname(os.path.abspath(__file__)))

import pbn_plays

HERE = os.path.dirname(os.path.abspath(__file__))
SAMPLES = os.path.join(HERE, "..", "cases", "data", "pbn")

DEAL = "N:3.2.. A.A.. K.K.. Q.Q.."


def pbn(*lines):
    return list(pbn_plays.lines_of("\n".join(lines).encode()))


class Sections(unittest.TestCase):
    def test_the_sample_has_the_plays_of_its_two_boards_and_none_of_the_one_passed_out(self):
        with open(os.path.join(SAMPLES, "10-auction-play.pbn"), "rb") as file:
            lines = list(pbn_plays.lines_of(file.read()))
        with open(os.path.join(SAMPLES, "10-auction-play.plays")) as file:
            self.assertEqual(lines, file.read().splitlines())

    def test_a_row_is_turned_to_begin_with_the_winner_of_the_trick_before(self):
        # East wins the first trick, so the second row is read from the second column on.
        lines = pbn(f'[Deal "{DEAL}"]', '[Contract "1NT"]', '[Declarer "W"]', '[Play "N"]', "S3 SA SK SQ", "H2 HA HK HQ")
        self.assertIn('"cards":[[0,3],[0,14],[0,13],[0,12],[1,14],[1,13],[1,12],[1,2]]', lines[0])

    def test_the_play_ends_before_the_first_card_that_is_not_known(self):
        lines = pbn(f'[Deal "{DEAL}"]', '[Contract "1NT"]', '[Declarer "W"]', '[Play "N"]', "S3 SA SK SQ", "H2 HA - HQ")
        self.assertTrue(lines[0].endswith('[0,12],[1,14]]}'))

    def test_a_contract_in_words_of_another_language_is_none(self):
        for contract in ("3SA", "4SP", "4C\u0153ur"):
            self.assertEqual(pbn(f'[Deal "{DEAL}"]', f'[Contract "{contract}"]', '[Declarer "W"]', '[Play "N"]', "S3 SA SK SQ"), [])
        for contract, trump in (("3NT", 4), ("3N", 4), ("1ntx", 4), ("4SXX", 0), ("2C", 3)):
            lines = pbn(f'[Deal "{DEAL}"]', f'[Contract "{contract}"]', '[Declarer "W"]', '[Play "N"]', "S3 SA SK SQ")
            self.assertIn(f'"trump":{trump},', lines[0])

    def test_notes_suffixes_and_comments_are_no_cards(self):
        lines = pbn(f'[Deal "{DEAL}"]', '[Contract "1H"]', '[Declarer "W"]', '[Play "N"]', "S3! $6 SA =1= {SK} SK?? ; S2", "SQ *", "H2")
        self.assertTrue(lines[0].endswith('"trump":1,"first":0,"cards":[[0,3],[0,14],[0,13],[0,12]]}'))

    def test_without_contract_and_declarer_the_auction_tells_both(self):
        # North bids spades first, so North declares South's spades, and East leads.
        lines = pbn(f'[Deal "{DEAL}"]', '[Auction "N"]', "1S Pass 2S AP", '[Play "E"]', "SA SK SQ S3")
        self.assertIn('"trump":0,"first":1,', lines[0])

    def test_a_tag_in_a_comment_is_none_and_an_empty_line_ends_a_game(self):
        lines = pbn('{[Play "N"]}', f'[Deal "{DEAL}"]', '[Contract "1NT"]', '[Declarer "W"]', "", '[Play "N"]', "S3 SA SK SQ")
        self.assertEqual(lines, [])

    def test_a_board_without_a_play_has_no_line(self):
        self.assertEqual(pbn(f'[Deal "{DEAL}"]', '[Contract "Pass"]', '[Play "N"]', "*"), [])


class Lin(unittest.TestCase):
    HANDS = "SAHDC,SKHDC,SQHDC,SJHDC"

    def test_the_fields_give_dealer_hands_contract_and_cards(self):
        text = "pn|a,b,c,d|qx|o1|md|3SA,SK,SQ,SJ|sv|o|mb|p|mb|1N!|mb|p|mb|p|mb|p|pc|SA|pc|SK|pc|SQ|pc|SJ|pg||"
        # North deals and passes, East bids and declares, South leads.
        self.assertEqual(
            list(pbn_plays.lines_of(text.encode())),
            ['{"do":"play","deal":"N:Q... J... A... K...","trump":4,"first":2,"cards":[[0,14],[0,13],[0,12],[0,11]]}'],
        )

    def test_easts_hand_may_be_left_out(self):
        south = "SAKQJT98765432HDC"
        west = "SHAKQJT98765432DC"
        north = "SHDAKQJT98765432C"
        text = f"md|1{south},{west},{north},|mb|7S|mb|p|mb|p|mb|p|pc|HA|"
        line = list(pbn_plays.lines_of(text.encode()))[0]
        self.assertIn('"deal":"N:..AKQJT98765432. ...AKQJT98765432 AKQJT98765432... .AKQJT98765432.."', line)
        self.assertTrue(line.endswith('"trump":0,"first":3,"cards":[[1,14]]}'))

    def test_a_ten_of_two_digits_is_none_in_a_deal_and_one_as_a_card_of_a_play(self):
        text = "md|3SA,S%s,SQ,SJ|mb|1N|mb|p|mb|p|mb|p|pc|SJ|pc|SA|pc|S10|pc|SQ|"
        [line] = pbn_plays.lines_of((text % "T").encode())
        self.assertTrue(line.endswith('"deal":"N:Q... J... A... T...","trump":4,"first":1,"cards":[[0,11],[0,14],[0,10],[0,12]]}'))
        self.assertEqual(list(pbn_plays.lines_of((text % "10").encode())), [])
        other = text % "T" + "qx|o2|" + text % "x" + "qx|o3|" + text % "T"
        self.assertEqual(list(pbn_plays.lines_of(other.encode())), [line, line])
        for ten, count in (("T", 1), ("10", 0)):
            deal = DEAL.replace("3.2", f"{ten}.2")
            self.assertEqual(len(pbn(f'[Deal "{deal}"]', '[Contract "1NT"]', '[Declarer "W"]', '[Play "N"]', "S10 SA SK SQ")), count)

    def test_a_claim_ends_the_play(self):
        text = "md|3SA,SK,SQ,SJ|mb|1N|mb|p|mb|p|mb|p|pc|SJ|mc|1|pc|SA|"
        self.assertTrue(list(pbn_plays.lines_of(text.encode()))[0].endswith('"cards":[[0,11]]}'))

    def test_each_board_has_its_line(self):
        board = "md|3SA,SK,SQ,SJ|mb|1N|mb|p|mb|p|mb|p|pc|SJ|"
        self.assertEqual(len(list(pbn_plays.lines_of(("qx|o1|" + board + "qx|c1|" + board).encode()))), 2)


if __name__ == "__main__":
    unittest.main()
