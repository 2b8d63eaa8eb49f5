"""What a query comes to by docs/PROFILE.md: which rule decides, what the upstream is asked before that is known, the reply, and the cache.
Facts are answers by question, a name in lower case and a type; an answer is None where none came that counts."""

import collections
from dataclasses import replace
from typing import NamedTuple

import reading
import rules
from dns_text import TYPES

A, NS, CNAME, SOA, AAAA, ANY = (TYPES[name] for name in ("A", "NS", "CNAME", "SOA", "AAAA", "ANY"))
MOST_FACTS = 128
DAY = 86_400
ENTRIES = 4_096


class Answer(NamedTuple):
    """Of its records those of class IN; `soa`: the first of the authority section. `age`: in seconds, when it was obtained."""
    rcode: int
    answers: tuple
    soa: object
    age: int = 0

    def life(self):
        """For how many seconds it may be kept (RFC 2308, section 5)."""
        ttls = [record.ttl for record in self.answers]
        if self.soa is None:
            return 0 if self.rcode == reading.NXDOMAIN or not ttls else min(DAY, *ttls)
        return min(DAY, self.soa.ttl, int.from_bytes(self.soa.octets[-4:], "big"), *ttls)

    def aged(self, record):
        """A record of it, with what is left of its TTL."""
        return replace(record, ttl=max(0, record.ttl - self.age))


def answer_of(message):
    answers = tuple(record for record in message.answer if record.rclass == reading.IN)
    soas = [record for record in message.authority if (record.rtype, record.rclass) == (SOA, reading.IN)]
    return Answer(message.rcode(), answers, soas[0] if soas else None)


class Cache:
    """The cache of a script: answers with the second at which they came, the least recently used first."""

    def __init__(self):
        self.entries = collections.OrderedDict()

    def get(self, question, now):
        if question not in self.entries:
            return None
        self.entries.move_to_end(question)
        came, answer = self.entries[question]
        return answer._replace(age=now - came) if came <= now < came + answer.life() else None

    def put(self, question, now, answer):
        if answer is not None and answer.life():
            self.entries[question] = now, answer
            self.entries.move_to_end(question)
            if len(self.entries) > ENTRIES:
                self.entries.popitem(last=False)


class Ask(Exception):
    """This must be asked."""


class Query:
    """A query, the rules when it came, and what is known for it. `by`: what has decided it, in words. `cached`: how many
    facts the cache gave."""

    def __init__(self, octets, transport, client, policy):
        self.octets, self.transport, self.client, self.policy = octets, transport, client, policy
        self.request = reading.read_message(octets)
        self.main = reading.lower(self.request.name), self.request.qtype
        self.facts, self.by, self.cached = {}, "nothing", 0

    def turn(self, cache, now):
        """What comes next: the question that is asked, the reply as octets, or nothing where none is sent."""
        while True:
            try:
                return None, self.outcome()
            except Ask as why:
                question = why.args[0]
            if len(self.facts) >= MOST_FACTS:
                return None, self.failure()
            answer = cache.get(question, now)
            if answer is None:
                return question, None
            self.facts[question] = answer
            self.cached += 1

    # -- facts

    def fact(self, question):
        """What is known; `Ask` where nothing is."""
        if question not in self.facts:
            raise Ask(question)
        return self.facts[question]

    def records(self, *questions):
        """The answers to questions, as far as they are known."""
        found = [self.facts.get(question) for question in questions]
        return [record for answer in found if answer is not None for record in answer.answers]

    def servers(self, name):
        """The name servers of a name and of those above it, as far as they are known."""
        return {reading.lower(record.target) for owner in ancestors(name) for record in self.records((owner, NS))
                if record.rtype == NS and reading.lower(record.owner) == owner}

    def addresses(self, server):
        """The addresses of a server, as far as they are known."""
        return addresses_in(server, self.records((server, A), (server, AAAA)))

    # -- which rule decides

    def is_hit(self, rule, position, name):
        """Whether a rule matches at a name of the chain, in lower case."""
        if rule.kind == rules.CLIENT_IP:
            return position == 0 and rule.trigger.contains(self.client)
        if rule.kind == rules.QNAME:
            return rule.trigger.matches(name)
        if rule.kind == rules.RESPONSE_IP:
            return any(map(rule.trigger.contains, addresses_in(name, self.records(self.main))))
        if rule.kind == rules.NSDNAME:
            return any(map(rule.trigger.matches, self.servers(name)))
        return any(rule.trigger.contains(address) for server in self.servers(name) for address in self.addresses(server))

    def rule_at(self, position, name):
        """The rule that decides at a name, None where none does; `Ask` where that isn't known."""
        hit = next((rule for rule in self.policy if self.is_hit(rule, position, name)), None)
        rest = {rule.kind for rule in self.policy if hit is None or (rule.zone, rule.kind) <= (hit.zone, hit.kind)}
        if rules.RESPONSE_IP in rest:
            self.fact(self.main)
        if rest & {rules.NSDNAME, rules.NSIP}:
            for owner in ancestors(name):
                self.fact((owner, NS))
        if rules.NSIP in rest:
            for server in sorted(self.servers(name), key=rules.canonical):
                self.fact((server, A))
                self.fact((server, AAAA))
        return hit

    def chain(self, answer):
        """The names of the chain, as they are spelled; None where there are too many."""
        names = [self.request.name]
        if answer is None or self.request.qtype in (CNAME, ANY):
            return names
        while (alias := alias_of(answer, names[-1])) is not None:
            if reading.lower(alias.target) in map(reading.lower, names):
                break
            names.append(alias.target)
            if len(names) > reading.CHAIN:
                return None
        return names

    def outcome(self):
        """The reply, or None for silence."""
        rule = self.rule_at(0, self.main[0])
        if rule is not None:
            return self.by_rule(rule, [], self.request.name)
        names = self.chain(self.fact(self.main))
        if names is None:
            return self.failure()
        for position, name in enumerate(names[1:], 1):
            rule = self.rule_at(position, reading.lower(name))
            if rule is not None:
                return self.by_rule(rule, names[:position], name)
        return self.passing()

    # -- replies

    def reply(self, rcode, answers=(), authority=(), additional=()):
        return reading.reply(self.octets, self.request, self.transport, rcode, (answers, authority, additional))

    def failure(self):
        self.by = "a failure"
        return self.reply(reading.SERVFAIL)

    def passing(self):
        answer = self.fact(self.main)
        self.by = self.by if self.by != "nothing" else "no rule"
        return self.failure() if answer is None else self.reply(answer.rcode, *sections_of(answer))

    def by_rule(self, rule, before, name):
        """What the rule gives that decides at this name, behind those of the chain."""
        self.by = f"{rules.NAMES[rule.kind]}{' behind an alias' if before else ''}"
        if rule.action == rules.DROP:
            return None
        if rule.action == rules.PASSTHRU or rule.action == rules.TCP_ONLY and self.transport == "tcp":
            return self.passing()
        if rule.action == rules.TCP_ONLY:
            return reading.truncated(self.octets, self.request)
        answer = self.facts.get(self.main)
        kept = [answer.aged(alias_of(answer, one)) for one in before]
        soa = [local_record(rule.origin, SOA, rule.soa.ttl, rule.soa.octets)]
        if rule.action != rules.LOCAL:
            return self.reply(reading.NXDOMAIN if rule.action == rules.NXDOMAIN else reading.NOERROR, kept, (), soa)
        if rule.rows[0][0] == CNAME:
            return self.by_alias(rule.rows[0], kept, name, soa)
        local = [local_record(name, rtype, ttl, data) for rtype, data, ttl in rule.rows if self.request.qtype in (rtype, ANY)]
        return self.reply(reading.NOERROR, kept + local, (), soa)

    def by_alias(self, row, kept, name, soa):
        """The CNAME of a rule, and what the upstream has of its target."""
        _, data, ttl = row
        target = reading.Reader(bytes(reading.HEADER) + data).name()
        if len(target) > 1 and target[0] == b"*":
            target = (*name, *target[1:])
        if len(reading.written(target)) > reading.MOST_NAME:
            return self.failure()
        kept = [*kept, local_record(name, CNAME, ttl, reading.written(target))]
        if self.request.qtype in (CNAME, ANY):
            return self.reply(reading.NOERROR, kept, (), soa)
        answer = self.fact((reading.lower(target), self.request.qtype))
        if answer is None:
            return self.failure()
        answers, authority = sections_of(answer)
        return self.reply(answer.rcode, [*kept, *answers], authority, soa)


def ancestors(name):
    """A name and those above it, from two labels upward."""
    return [name[at:] for at in range(len(name) - 2, -1, -1)]


def addresses_in(name, records):
    return [record.octets for record in records if record.rtype in (A, AAAA) and reading.lower(record.owner) == name]


def alias_of(answer, name):
    """The first CNAME record of a name."""
    wanted = reading.lower(name)
    return next((record for record in answer.answers if record.rtype == CNAME and reading.lower(record.owner) == wanted), None)


def sections_of(answer):
    return list(map(answer.aged, answer.answers)), [answer.aged(answer.soa)] if answer.soa is not None else []


def local_record(owner, rtype, ttl, data):
    return reading.Record(owner, rtype, reading.IN, ttl, data)

