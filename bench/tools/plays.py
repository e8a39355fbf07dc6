"""Request lines for whole plays of full deals, from a fixed seed: strains in turn, and of three deals the first with random
cards, the second with best cards, the third with best cards but for a mistake now and then, as people make. Which cards are
best `ddserve solve` tells, whose path is the first word."""
import argparse
import json
import random
import subprocess

parser = argparse.ArgumentParser(description=__doc__)
parser.add_argument("program", help="the program ddserve")
parser.add_argument("deals", type=int)
parser.add_argument("--seed", type=int, default=20261124)
words = parser.parse_args()

MISTAKES = 0.08
program = subprocess.Popen([words.program, "solve"], stdin=subprocess.PIPE, stdout=subprocess.PIPE, text=True)


def text_of(hands):
    return "N:" + " ".join(".".join("".join("..23456789TJQKA"[r] for r in range(14, 1, -1) if (suit, r) in hand) for suit in range(4)) for hand in hands)


def best_cards(hands, trump, first, trick):
    request = {"do": "solve", "deal": text_of(hands), "trump": trump, "first": first, "played": trick, "solutions": 2}
    program.stdin.write(json.dumps(request) + "\n")
    program.stdin.flush()
    return [(card["suit"], card["rank"]) for card in json.loads(program.stdout.readline())["cards"]]


def winner(trick, first, trump):
    led = trick[0][0]
    strongest = max(range(4), key=lambda i: (trick[i][0] == trump, trick[i][0] == led, trick[i][1]))
    return (first + strongest) % 4


random.seed(words.seed)
for number in range(words.deals):
    pack = [(suit, rank) for suit in range(4) for rank in range(2, 15)]
    random.shuffle(pack)
    hands = [pack[seat * 13:seat * 13 + 13] for seat in range(4)]
    deal, trump, leader, kind = text_of(hands), number % 5, random.randrange(4), number % 3
    first, trick, played = leader, [], []
    while len(played) < 52:
        hand = hands[(first + len(trick)) % 4]
        legal = [card for card in hand if trick and card[0] == trick[0][0]] or hand
        if kind == 0 or len(legal) == 1 or (kind == 2 and random.random() < MISTAKES):
            card = random.choice(legal)
        else:
            card = random.choice(best_cards(hands, trump, first, trick))
        hand.remove(card)
        trick.append(card)
        played.append(card)
        if len(trick) == 4:
            first, trick = winner(trick, first, trump), []
    print(json.dumps({"do": "play", "deal": deal, "trump": trump, "first": leader, "cards": played}, separators=(",", ":")))
program.stdin.close()
program.wait()
