"""Judges what a gateway did by what its workers noted: each delivery, and each protected datagram that was sent.

    check_log.py LOG [RESULTS EFFECTS]

None is delivered twice; of each nonce there is one datagram, however often it was sent; and each reply is to a request that was delivered.
With RESULTS, of the clients, and EFFECTS, of the rows, the rows say how many requests were obeyed: each that was answered, once, and beside
them none but those that were given up, and those that were challenged, of which a copy may come when the context is open. (Then a delivery is
written with its reply, so a worker can be killed before it notes the delivery.)

A line of the log is `D KEY NUMBER` or `S KEY NUMBER DATAGRAM`; NUMBER is the request's. The last line says what was counted; the status is 1
where something is wrong. It is read from the datagram itself under which number it is sealed.
"""

import collections
import glob
import sys


def option_9(datagram):
    """The value of the OSCORE option."""
    at, number = 4 + (datagram[0] & 15), 0
    while at < len(datagram) and datagram[at] != 0xFF:
        nibbles = [datagram[at] >> 4, datagram[at] & 15]
        at += 1
        for i, nibble in enumerate(nibbles):
            if nibble == 13:
                nibbles[i] = datagram[at] + 13
                at += 1
            elif nibble == 14:
                nibbles[i] = int.from_bytes(datagram[at : at + 2], "big") + 269
                at += 2
        number += nibbles[0]
        if number == 9:
            return datagram[at : at + nibbles[1]]
        at += nibbles[1]
    return None


def nonce(number, datagram):
    """The number that a reply is sealed under, and whose it is."""
    value = option_9(datagram)
    if value is None:
        return None
    if value and value[0] & 7:
        return "own", int.from_bytes(value[1 : 1 + (value[0] & 7)], "big")
    return "request", number


def read_log(folder):
    delivered, sent, plain = collections.Counter(), collections.defaultdict(collections.Counter), 0
    for name in sorted(glob.glob(folder + "/worker.*")):
        with open(name, encoding="ascii") as lines:
            for line in lines:
                words = line.split()
                if words[0] == "D":
                    delivered[words[1], int(words[2])] += 1
                    continue
                datagram = bytes.fromhex(words[3])
                under = nonce(int(words[2]), datagram)
                if under is None:
                    plain += 1
                else:
                    sent[(words[1], *under)][words[2], datagram] += 1
    return delivered, sent, plain


def counted(name):
    with open(name, encoding="ascii") as lines:
        return {words[0]: [int(word) for word in words[1:]] for words in map(str.split, lines)}


def faults(folder, results=None, effects=None):
    delivered, sent, plain = read_log(folder)
    twice = sum(count > 1 for count in delivered.values())
    reused = sum(len(texts) > 1 for texts in sent.values())
    wrong = 0 if results else sum((key, number) not in delivered for key, whose, number in sent if whose == "request")
    again = sum(sum(texts.values()) - len(texts) for texts in sent.values())
    obeyed = 0
    if results:
        effect = counted(effects)
        for key, (answered, others) in counted(results).items():
            obeyed += not answered <= effect[key][0] <= answered + others
    own = sum(whose == "own" for _, whose, _ in sent)
    print(
        f"check: delivered {len(delivered)}, twice {twice}; nonces {len(sent)} (own {own}), for two texts {reused}; the same bytes again {again}; "
        f"replies to nothing {wrong}; without protection {plain}; counts that are wrong {obeyed}"
    )
    if not delivered or not sent:
        print("check: there is nothing in the log")
        return True
    return bool(twice or reused or wrong or plain or obeyed)


if __name__ == "__main__":
    sys.exit(faults(*sys.argv[1:]))
