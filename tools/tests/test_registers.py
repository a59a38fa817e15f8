"""The least number of register bits, beside a search over all cycles of small nets; rules fit and never take more than one pass."""
import itertools
import random
import unittest

from tests import loading

BENCH = loading.tool_of("../bench/registers")
CHECK = loading.tool_of("../bench/example-registers")
Net = BENCH.Net


def drawn(draw: random.Random) -> "Net":
    """A net of two inputs and five nodes, one of which may be a delay, with up to a cycle of cells in series."""
    net = Net(room=10)
    for node in range(7):
        is_input, is_hold = node < 2, node == 4 and draw.random() < 0.5
        net.widths.append(draw.randint(1, 4))
        net.delays.append(0 if is_input or is_hold else draw.choice((0, 3, 6, 10)))
        net.reads.append([] if is_input else sorted(draw.sample(range(node), 1 if is_hold else min(node, draw.randint(1, 3)))))
        net.inputs |= {node} if is_input else set()
        net.holds |= {node} if is_hold else set()
    read = {node for reads in net.reads for node in reads}
    net.outputs = {node for node in range(7) if node not in read} | {6}
    return net


def searched(net: "Net", latency: int) -> int:
    """The fewest bits over all cycles that fit."""
    free = [node for node in range(net.count) if node not in net.inputs]
    found = []
    for chosen in itertools.product(range(latency + 1), repeat=len(free)):
        cycles = [0] * net.count
        for node, cycle in zip(free, chosen):
            cycles[node] = cycle
        if BENCH.fits(net, cycles, latency):
            found.append(BENCH.bits_of(net, cycles, latency))
    return min(found)


class Registers(unittest.TestCase):
    def test_worked(self):
        """A word of eight bits whose lowest is used two cycles later: the gate waits, or its word of one bit."""
        net = Net(widths=[8, 1, 8, 8], delays=[0, 4, 10, 10], reads=[[], [0], [0], [2]], inputs={0}, outputs={1, 3}, room=10)
        self.assertEqual(BENCH.one_pass(net), [0, 0, 0, 1])
        self.assertEqual(BENCH.bits_of(net, [0, 0, 0, 1], 1), 9)
        self.assertEqual(BENCH.bits_of(net, [0, 1, 0, 1], 1), 16)
        self.assertEqual(BENCH.bits_of(net, BENCH.least(net), 1), 9)

    def test_shared_word(self):
        """A word of two bits of which two gates make four bits each: the word waits in their place."""
        net = Net(widths=[2, 4, 4, 9, 9], delays=[0, 4, 4, 10, 10], reads=[[], [0], [0], [0], [3]], inputs={0}, outputs={1, 2, 4}, room=10)
        one = BENCH.one_pass(net)
        self.assertEqual((one, BENCH.bits_of(net, one, 1)), ([0, 0, 0, 0, 1], 17))
        for cycles in (BENCH.least(net), BENCH.backward(net, 1), BENCH.cones(net, 1)):
            self.assertEqual(BENCH.bits_of(net, cycles, 1), 11)

    def test_moved_together(self):
        """Both outputs of a full adder are read a cycle later. With both in the earlier cycle two bits wait in place of three; the first
        of them alone saves nothing there."""
        net = Net(widths=[1, 1, 1, 1, 1, 1, 1, 4], delays=[0, 0, 0, 0, 4, 4, 10, 6], inputs={0, 1, 2, 3}, outputs={7}, room=10,
                  reads=[[], [], [], [], [0, 1, 2], [0, 1, 2], [3], [4, 5, 6]])
        self.assertEqual(BENCH.latest(net, 1), [0, 0, 0, 0, 1, 1, 0, 1])
        for rule, cycle, bits in ((BENCH.forward, 1, 4), (BENCH.together, 0, 3), (BENCH.few, 0, 3)):
            cycles = rule(net, 1)
            self.assertEqual((cycles[4], cycles[5], BENCH.bits_of(net, cycles, 1)), (cycle, cycle, bits), rule.__name__)

    def test_known_numbers(self):
        """What a row has is not measured again; a net that is not the row's is refused."""
        net = Net(widths=[8, 1, 8, 8], delays=[0, 4, 10, 10], reads=[[], [0], [0], [2]], inputs={0}, outputs={1, 3}, room=10)
        row = BENCH.measured(net, {"nodes": 4, "least": 7})
        self.assertEqual((row["least"], row["one_pass"], row["few"]), (7, 9, 9))
        with self.assertRaisesRegex(AssertionError, "not that of the row"):
            BENCH.measured(net, {"nodes": 5})

    def test_faults(self):
        """Of version 4 the bits are those of the rule, before it those of one pass; the rule has 115 hundredths of the least at most."""
        for found, faults in (((4, 23, 30, 23, 20), 0), ((4, 30, 30, 23, 20), 1), ((3, 30, 30, 23, 20), 0), ((3, 23, 30, 24, 20), 2)):
            self.assertEqual(len(list(CHECK.Found("a", *found).faults())), faults, found)

    def test_small_nets(self):
        """Of drawn nets the least number is that of a search; each rule fits, and some are between it and one pass."""
        draw, tried = random.Random(3), 0
        while tried < 25:
            net = drawn(draw)
            one = BENCH.one_pass(net)
            latency = BENCH.latency_of(net, one)
            if latency not in (1, 2):
                continue
            tried += 1
            with self.subTest(net=net):
                fewest = searched(net, latency)
                self.assertEqual(BENCH.bits_of(net, BENCH.least(net), latency), fewest)
                for name, (_, rule) in BENCH.RULES.items():
                    cycles = rule(net, latency)
                    self.assertTrue(BENCH.fits(net, cycles, latency), name)
                    bits = BENCH.bits_of(net, cycles, latency)
                    self.assertGreaterEqual(bits, fewest, name)
                    if name in ("backward", "few", "cones", "tidied", "simple", "sets"):
                        self.assertLessEqual(bits, BENCH.bits_of(net, one, latency), name)


if __name__ == "__main__":
    unittest.main()
