"""A member of a group by what its caller sees: its texts, each error, what is made anew, and threads."""

import copy
import ctypes
import json
import pickle
import threading
import unittest

import fochillun

FOUNDING = b"""version = 1
members = 2
operations = ["pay", "read"]
objects = ["ledger"]
permissions = [["read", "ledger"]]
"""
ANN = {"name": "AddUser", "user": "ann"}
SENT_ANN = b'{"caller":7,"commands":[{"name":"AddUser","user":"ann"}],"serial":0,"stamp":[1,1]}'
CLERK = [
    {"name": "AddRole", "role": "clerk"},
    {"name": "GrantPermission", "operation": "read", "object": "ledger", "role": "clerk"},
    {"name": "AssignUser", "user": "ann", "role": "clerk"},
    {"name": "CreateSession", "user": "ann", "session": "s1", "roles": ["clerk"]},
]
CHECK = {"name": "CheckAccess", "session": "s1", "operation": "read", "object": "ledger"}


def all_of(text):
    """The texts of the numbers 1, 2 and so on."""
    told = []
    while True:
        try:
            told.append(text(len(told) + 1))
        except fochillun.MemberRefused:
            return told


def shown(member):
    """All that a member tells of itself."""
    return all_of(member.message), all_of(member.record), member.dump(), member.waits(), member.next_serial(7)


def bring(sender, messages, member, row):
    """Brings what was not received, the acknowledgement by the member's row first, and delivers what is due."""
    for number in range(member.read(sender) + 1, len(messages) + 1):
        answer = member.next_answer(sender, number, messages[number - 1])
        if answer:
            row.append(answer)
            member.take_own(len(row), answer)
        assert member.receive(sender, number, messages[number - 1]) is None
    while member.deliver():
        pass


class Case(unittest.TestCase):
    def refuses(self, word, call, *words):
        with self.assertRaises(fochillun.MemberRefused) as raised:
            call(*words)
        self.assertEqual(raised.exception.word, word)
        return raised.exception


class Groups(Case):
    def test_one_history_and_a_member_made_anew_of_its_row(self):
        rows = {1: [], 2: []}
        with fochillun.Member(FOUNDING, 1) as one, fochillun.Member(FOUNDING, 2) as two:
            rows[1].append(one.next_submit(7, 0, ANN))
            self.assertEqual((rows[1][0], one.take_own(1, rows[1][0])), (SENT_ANN, 1))
            bring(1, rows[1], two, rows[2])
            rows[2].append(two.next_submit_batch(7, 0, CLERK))
            self.assertEqual(two.take_own(2, rows[2][1]), 2)
            bring(2, rows[2], one, rows[1])
            bring(1, rows[1], two, rows[2])
            told, other = shown(one), shown(two)
            self.assertEqual((told[1:3], len(told[1])), (other[1:3], 5))
            self.assertEqual((told[0], other[0]), (rows[1], rows[2]))
            self.assertEqual([json.loads(line) for line in told[2][:2]], [{"at": 1, "command": command} for command in (ANN, CLERK[0])])
        with fochillun.Member.restore(FOUNDING, 2, rows[2]) as two:
            self.assertEqual((two.read(1), two.deliver(), two.message(2)), (0, None, rows[2][1]))
            bring(1, rows[1], two, rows[2])
            self.assertEqual(shown(two), other)
            checked = two.check("s1", "read", "ledger")
            self.assertTrue(checked)
            self.assertEqual(checked, (True, 5))
            self.assertFalse(two.check("s1", "pay", "ledger"))

    def test_a_submit_leaves_what_its_next_message_leaves(self):
        with fochillun.Member(FOUNDING, 1) as one, fochillun.Member(FOUNDING, 1) as other:
            one.take_own(1, one.next_submit(7, 0, ANN))
            one.take_own(2, one.next_submit_batch(7, 1, [ANN, ANN]))
            self.assertEqual((other.submit(7, 0, json.dumps(ANN)), other.submit_batch(7, 1, json.dumps([ANN, ANN]).encode())), (1, 2))
            self.assertEqual(shown(one), shown(other))
            self.assertEqual(one.next_serial(7), 3)

    def test_what_steps_tell(self):
        with fochillun.Member(FOUNDING, 1) as one, fochillun.Member(FOUNDING, 2) as two:
            self.assertEqual(one.submit(7, 0, ANN), 1)
            self.assertEqual((one.deliver(), one.waits()), (None, fochillun.Waiting(1, 1, 0, 2)))
            self.assertEqual((two.receive(1, 1, json.loads(SENT_ANN)), two.deliver()), (1, 1))
            self.assertEqual(two.message(1), b'{"stamp":[3,2]}')
            self.assertIsNone(one.next_answer(2, 1, two.message(1)))
            self.assertEqual((one.receive(2, 1, two.message(1)), one.deliver(), one.waits()), (None, 1, None))
            self.assertEqual(one.record(1), b'{"answer":"Done","caller":7,"command":{"name":"AddUser","user":"ann"},"serial":0,"stamp":[1,1]}')

    def test_an_observer_shows_what_the_member_shows(self):
        rows = {1: [], 2: []}
        with fochillun.Member(FOUNDING, 1) as one, fochillun.Member(FOUNDING, 2) as two, fochillun.Member.observe(FOUNDING, 2) as observer:
            one.submit_batch(7, 0, [ANN, *CLERK])
            rows[1].append(one.message(1))
            for call, words in [(observer.submit, (7, 0, ANN)), (observer.submit_batch, (7, 0, [ANN])), (observer.next_submit, (7, 0, b"any")),
                                (observer.next_submit_batch, (7, 0, b""))]:
                self.refuses("Observes", call, *words)
            self.refuses("NotYet", observer.receive, 1, 1, rows[1][0])
            self.assertEqual(self.refuses("NotYet", observer.next_answer, 1, 1, rows[1][0]).number, 312)
            self.refuses("Gap", observer.receive, 1, 2, rows[1][0])
            bring(1, rows[1], two, rows[2])
            self.assertEqual(observer.take_own(1, rows[2][0]), 1)
            bring(1, rows[1], observer, [])
            self.assertEqual((shown(observer), observer.review(CHECK)), (shown(two), "Granted"))
            self.assertEqual(observer.subjects("read", "ledger"), (["s1"], ["ann"]))
            self.assertTrue(observer.check("s1", "read", "ledger"))

    def test_what_reviews_tell(self):
        users = {"name": "AssignedUsers", "role": "clerk"}
        with fochillun.Member(FOUNDING, 2) as two:
            self.assertEqual(two.review(users), fochillun.Denial("NoRole", 4))
            two.receive(1, 1, {"caller": 7, "commands": [ANN, *CLERK], "serial": 0, "stamp": [1, 1]})
            while two.deliver():
                pass
            self.assertEqual((two.review(users), two.review(json.dumps(CHECK))), ({"names": ["ann"]}, "Granted"))
            self.assertEqual(self.refuses("NotAReview", two.review, ANN).number, 314)
            self.refuses("NotJson", two.review, b"{")

    def test_who_may(self):
        with fochillun.Member(FOUNDING, 2) as two:
            self.assertEqual(two.subjects("read", "ledger"), ([], []))
            two.receive(1, 1, {"caller": 7, "commands": [ANN, *CLERK], "serial": 0, "stamp": [1, 1]})
            self.assertEqual(two.subjects("read", "ledger"), ([], []))
            while two.deliver():
                pass
            self.assertEqual(two.subjects("read", "ledger"), fochillun.Subjects(["s1"], ["ann"]))
            with self.assertRaises(fochillun.SubjectsDenied) as raised:
                two.subjects("fly", "moon")
            self.assertEqual(raised.exception.word, "NoOperation")

    def test_a_text_longer_than_the_buffer(self):
        commands = [{"name": "AddUser", "user": f"user_of_a_rather_long_name_with_number_{i:02}"} for i in range(64)]
        with fochillun.Member(FOUNDING, 1) as one:
            text = one.next_submit_batch(7, 0, commands)
            self.assertGreater(len(text), 4096)
            self.assertEqual(json.loads(text), {"caller": 7, "commands": commands, "serial": 0, "stamp": [1, 1]})
            one.submit_batch(7, 0, commands)
            self.assertEqual((one.message(1), one.next_submit(7, 64, ANN)), (text, b'{"caller":7,"commands":[{"name":"AddUser","user":"ann"}],"serial":64,"stamp":[2,1]}'))


class Errors(Case):
    def test_founding(self):
        for founding, number, word in [(b"", 1, "BadVersion"), (FOUNDING, 0, "UnknownMember"), (FOUNDING, 3, "UnknownMember")]:
            with self.assertRaises(fochillun.FoundingRefused) as raised:
                fochillun.Member(founding, number)
            self.assertEqual(raised.exception.word, word)

    def test_a_refusal_tells_what_would_be_next(self):
        with fochillun.Member(FOUNDING, 2) as two:
            two.receive(1, 1, SENT_ANN)
            self.assertEqual(self.refuses("Repeat", two.receive, 1, 1, SENT_ANN).next, 2)
            self.assertEqual(self.refuses("Gap", two.receive, 1, 3, SENT_ANN).next, 2)
            self.assertEqual(self.refuses("Gap", two.take_own, 3, {"stamp": [9, 2]}).next, 2)
            self.assertEqual(self.refuses("BadSerial", two.submit, 7, 4, ANN).next, 0)
            self.assertIsNone(self.refuses("BadSerial", two.next_submit, 7, 4, ANN).next)
            self.assertIsNone(self.refuses("NotJson", two.submit, 7, 0, b"{").next)
            self.assertEqual(self.refuses("NotSent", two.message, 2).number, 304)
            self.assertEqual(str(self.refuses("Gap", two.receive, 1, 3, SENT_ANN)), "a message before it is missing")

    def test_each_other_word(self):
        with fochillun.Member(FOUNDING, 1) as one:
            self.refuses("FromSelf", one.receive, 1, 1, SENT_ANN)
            self.refuses("UnknownMember", one.receive, 3, 1, SENT_ANN)
            self.refuses("StampNotRising", one.receive, 2, 1, SENT_ANN)
            self.refuses("BadBatch", one.submit_batch, 7, 0, [])
            self.refuses("ClockFull", one.receive, 2, 1, {"stamp": [2**53, 2]})
            self.refuses("WrongKind", one.submit_batch, 7, 0, ANN)
            self.refuses("NotSent", one.record, 1)

    def test_a_number_that_is_too_great_is_not_cut(self):
        with fochillun.Member(FOUNDING, 1) as one:
            for number in (-1, 2**32, 2**32 + 1):
                self.assertRaises(ctypes.ArgumentError, one.take_own, number, SENT_ANN)
                self.assertRaises(ctypes.ArgumentError, one.submit, number, 0, ANN)
            one.submit(7, 0, ANN)
            self.assertRaises(ctypes.ArgumentError, one.message, 2**64 + 1)
            self.refuses("NotSent", one.message, 2**32 + 1)

    def test_check(self):
        with fochillun.Member(FOUNDING, 2) as two:
            two.receive(1, 1, SENT_ANN)
            two.deliver()
            for words, word in [(("s1", "read", "ledger"), "NoSession"), (("s1", "read", "led/ger"), "BadName")]:
                with self.assertRaises(fochillun.CheckDenied) as raised:
                    two.check(*words)
                self.assertEqual((raised.exception.word, raised.exception.records), (word, 1))

    def test_closed(self):
        one = fochillun.Member(FOUNDING, 1)
        one.close()
        one.close()
        for call, words in [(one.submit, (7, 0, ANN)), (one.deliver, ()), (one.message, (1,)), (one.waits, ()), (one.check, ("s1", "read", "ledger")),
                            (one.read, (2,)), (one.dump, ()), (one.review, (CHECK,)),
                            (one.subjects, ("read", "ledger")), (one.__enter__, ())]:
            self.assertRaisesRegex(fochillun.Closed, "the member was closed", call, *words)

    def test_no_copy(self):
        with fochillun.Member(FOUNDING, 1) as one:
            for way in (copy.copy, copy.deepcopy, pickle.dumps):
                self.assertRaisesRegex(TypeError, "a member is not copied", way, one)

    def test_a_row_that_is_not_taken(self):
        refused = self.refuses("StampNotRising", fochillun.Member.restore, FOUNDING, 2, [b'{"stamp":[1,2]}', SENT_ANN])
        self.assertEqual((refused.number, refused.message, refused.next), (307, 2, None))
        self.assertEqual(str(refused), "message 2 is refused: the message could not follow those before it")


class Threads(Case):
    def test_each_command_is_sent_once(self):
        with fochillun.Member(FOUNDING, 1) as one:
            told = []

            def work(caller):
                for serial in range(200):
                    told.append(one.submit(caller, serial, ANN))
                    assert one.message(told[-1]).startswith(b'{"caller":%d,' % caller) and one.next_serial(caller) == serial + 1

            threads = [threading.Thread(target=work, args=(caller,)) for caller in range(4)]
            for thread in threads:
                thread.start()
            for thread in threads:
                thread.join()
            self.assertEqual(sorted(told), list(range(1, 801)))


if __name__ == "__main__":
    unittest.main()
