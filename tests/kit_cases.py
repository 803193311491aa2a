"""The cases of examples/vectors/calls.json: a rule, the deal and the arc (and what the two accounts
have, where that isn't the arc's amount and nothing), and a line each for a height and for a call. A
call is made by the one who may make it, unless a party is named, and accepted, unless a reply is
told. An `open` tells lock and path, and then what is changed."""
from __future__ import annotations

CASES = """
== a claim pays the counterparty what was published: three 0
publish
open 0:bob,carol,alice
claim
== a refund gives the party back what was published: three 0
publish
at 61
refund
== where nothing was published every other call is NoContract, whoever makes it: three 0
open 0:bob,carol,alice => NoContract
open 0:bob,carol,alice by alice => NoContract
open 0:bob,carol,alice; another secret => NoContract
open 0:bob,carol => NoContract
open 0:bob,carol,alice; a bit of the last signature => NoContract
claim => NoContract
claim by alice => NoContract
refund => NoContract
refund by bob => NoContract
at 61
open 0:bob,carol,alice => NoContract
refund => NoContract
publish
== only the arc's party publishes: three 0
publish by bob => NotParty
publish by carol => NotParty
publish amount=101 by bob => NotParty
publish
publish by bob => NotParty
publish by carol => NotParty
== one publish is accepted, and no further one: three 0
publish amount=40
publish amount=40 => AlreadyPublished
publish amount=61 => AlreadyPublished
publish => AlreadyPublished
at 61
refund
publish => AlreadyPublished
== a publish is NoFunds where the party has less than its amount: three 0 99 3
publish => NoFunds 99
publish amount=99
publish amount=1 => AlreadyPublished
== a publish of all that the party has is accepted: three 0 1 0
publish amount=2 => NoFunds 1
publish amount=1
== a party that has nothing locks nothing: three 0 0 0
publish amount=1 => NoFunds 0
publish amount=0
== more than the arc's amount is NoFunds, with the arc's amount, though the party has more: three 0 500 7
publish amount=101 => NoFunds 100
publish amount=500 => NoFunds 100
publish amount=1000000000000 => NoFunds 100
publish
open 0:bob,carol,alice
claim
== an amount of twelve digits is held and paid: two_leaders 3
publish
open 0:alice
open 1:alice,bob
claim
== an amount of twelve digits is held and given back: two_leaders 3 1000000000001 1000000000000
publish amount=1000000000000
at 63
refund
== where nothing is left every other call is Settled, whoever makes it: three 0
publish
open 0:bob,carol,alice
claim
claim => Settled
claim by alice => Settled
claim by carol => Settled
refund => Settled
refund by bob => Settled
open 0:bob,carol,alice => Settled
open 0:bob,carol,alice by alice => Settled
open 0:bob,carol,alice; another secret => Settled
at 61
refund => Settled
claim => Settled
publish => AlreadyPublished
publish by bob => NotParty
== a refund settles the contract: three 0
publish
at 61
refund
refund => Settled
refund by bob => Settled
claim => Settled
claim by alice => Settled
open 0:bob,carol,alice => Settled
open 0:bob,carol,alice by alice => Settled
open 0:bob,carol,alice; another secret => Settled
open 0:bob,carol => Settled
open 0:bob,carol,alice; a bit of the last signature => Settled
== only the counterparty opens, and that comes before all that is wrong with a hashkey: three 0
publish
open 0:bob,carol,alice by alice => NotCounterparty
open 0:bob,carol,alice by carol => NotCounterparty
open 0:bob,carol,alice; another secret by alice => NotCounterparty
open 0:bob,carol by alice => NotCounterparty
open 0:bob,carol,alice; a bit of the last signature by alice => NotCounterparty
at 61
open 0:bob,carol,alice by alice => NotCounterparty
at 60
open 0:bob,carol,alice
open 0:bob,carol,alice by alice => NotCounterparty
== only the counterparty claims: three 0
publish
claim by alice => NotCounterparty
claim by carol => NotCounterparty
open 0:bob,carol,alice
claim by alice => NotCounterparty
claim by carol => NotCounterparty
claim
== only the party takes a refund: three 0
publish
refund by bob => NotParty
refund by carol => NotParty
at 61
refund by bob => NotParty
refund by carol => NotParty
refund
== only the party takes a refund, and that comes before NothingLocked: three 0
publish
open 0:bob,carol,alice
refund by bob => NotParty
at 61
refund by carol => NotParty
== a lock is opened once, and that comes before all that is wrong with a hashkey: three 0
publish
open 0:bob,carol,alice
open 0:bob,carol,alice => AlreadyUnlocked
open 0:bob,carol,alice; another secret => AlreadyUnlocked
open 0:bob,carol => AlreadyUnlocked
open 0:bob,carol,alice; a bit of the last signature => AlreadyUnlocked
at 61
open 0:bob,carol,alice => AlreadyUnlocked
claim
== WrongSecret comes before WrongPath, WrongSignature and TooLate: three 0
publish
open 0:bob,carol,alice; another secret => WrongSecret
open 0:bob,carol,alice; secret of bob => WrongSecret
open 0:bob,carol; another secret => WrongSecret
open 0:bob,carol,alice; the secret alone; another secret => WrongSecret
open 0:bob,carol,alice; secret of bob; a bit of the first signature => WrongSecret
at 61
open 0:bob,carol,alice; another secret => WrongSecret
== WrongPath comes before WrongSignature and TooLate: three 0
publish
open 0:bob,carol; a bit of the first signature => WrongPath
at 61
open 0:bob,carol => WrongPath
open 0:bob,carol,alice; a bit of the first signature; without the last signature => WrongPath
== WrongSignature comes before TooLate: three 0
publish
at 61
open 0:bob,carol,alice; a bit of the first signature => WrongSignature
open 0:bob,carol,alice => TooLate 60
== a path begins with the counterparty: three 1
publish
open 0:alice => WrongPath
open 0:bob,carol,alice => WrongPath
open 0:carol,alice
== a path ends with the lock's leader: three 0
publish
open 0:bob,carol => WrongPath
open 0:bob => WrongPath
open 0:bob,carol,alice
== a path ends with the leader of its own lock: two_leaders 2
publish
open 0:carol,alice,bob => WrongPath
open 1:carol,alice => WrongPath
open 1:carol,alice,bob
open 0:carol,alice
claim
== a path has a party, and as many signatures: three 2
publish
open 0:alice; the secret alone => WrongPath
open 0:alice; no path => WrongPath
open 0:alice; no signatures => WrongPath
open 0:alice; one signature more => WrongPath
open 0:alice
== a path has as many signatures as parties: three 0
publish
open 0:bob,carol,alice; without the last signature => WrongPath
open 0:bob,carol,alice; one signature more => WrongPath
open 0:bob,carol,alice; no signatures => WrongPath
open 0:bob,carol,alice; no path => WrongPath
== a path repeats nobody, though it follows arcs all around: three 0
publish
open 0:bob,carol,alice,bob,carol,alice => WrongPath
open 0:bob,carol,bob,carol,alice => WrongPath
== a path repeats nobody, though two payments go back and forth: two_payments 0
publish
open 0:bob,alice,bob,alice => WrongPath
open 0:bob,alice
== a path follows arcs of the deal, in their direction: three 1
publish
open 0:carol,bob,alice => WrongPath
open 0:carol,alice
== a path follows arcs at each of its steps: two_leaders 2
publish
open 1:carol,bob => WrongPath
open 0:carol,bob,alice => WrongPath
open 1:carol,alice,bob
== of several paths each opens: two_leaders 0
publish
open 0:bob,carol,alice
open 1:bob
claim
== a shorter path opens too: two_leaders 0
publish
open 0:bob,alice
open 1:bob
claim
== the first signature of a path is checked: three 0
publish
open 0:bob,carol,alice; a bit of the first signature => WrongSignature
open 0:bob,carol,alice; a step of the first signature => WrongSignature
open 0:bob,carol,alice; the first signed by the last party => WrongSignature
open 0:bob,carol,alice; signed without the next signature => WrongSignature
open 0:bob,carol,alice; signed without the rest of the path => WrongSignature
open 0:bob,carol,alice
== the last signature of a path is checked: three 0
publish
open 0:bob,carol,alice; a byte more of the last signature, signed => BadCall
open 0:bob,carol,alice; a bit of the last signature => WrongSignature
open 0:bob,carol,alice; a bit of the last signature, signed => WrongSignature
open 0:bob,carol,alice; a step of the last signature => WrongSignature
== the only signature of a path is checked: three 2
publish
open 0:alice; a bit of the first signature => WrongSignature
open 0:alice; a step of the first signature => WrongSignature
== a signature is over the deal's id, the lock, the path, the secret and the next signature: three 0
publish
open 0:bob,carol,alice; signed of another deal => WrongSignature
open 0:bob,carol,alice; signed as of the other version => WrongSignature
open 0:bob,carol,alice; signed for another lock => WrongSignature
open 0:bob,carol,alice; signed with another secret => WrongSignature
open 0:bob,carol,alice; the first two signatures exchanged => WrongSignature
== a signature is for its lock: two_leaders 2
publish
open 1:carol,alice,bob; signed for another lock => WrongSignature
open 0:carol,alice; signed for another lock => WrongSignature
open 0:carol,alice
open 1:carol,alice,bob
== a signature is over the version: two_payments 0
publish
open 0:bob,alice; signed as of the other version => WrongSignature
open 0:bob,alice
== a path of one party opens up to its own height: three 2
publish
at 41
open 0:alice => TooLate 40
at 40
open 0:alice
== a path of two parties opens longer: three 1
publish
at 51
open 0:carol,alice => TooLate 50
at 50
open 0:carol,alice
== a path of three parties opens longest: three 0
publish
at 61
open 0:bob,carol,alice => TooLate 60
at 60
open 0:bob,carol,alice
== the height decides by the path, not by the lock: two_leaders 0
publish
at 52
open 1:bob => TooLate 42
open 0:bob,alice
== a hashkey's height comes from the published start, delta and bound: three 0
publish start=13 delta=7 bound=4 timelock=3
at 63
open 0:bob,carol,alice => TooLate 62
at 62
open 0:bob,carol,alice
== the expiry comes from the published start, delta and bound: three 0
publish start=13 delta=7 bound=4 timelock=3 amount=99
at 76
refund => NotExpired 77
at 77
refund
== a start, a delta and a bound of nothing are terms as others: three 2
publish start=5 delta=0 bound=0
at 6
open 0:alice => TooLate 5
at 5
refund => NotExpired 6
open 0:alice
== a height begins at 0: three 2
publish start=0 delta=0 bound=0
refund => NotExpired 1
open 0:alice
claim
== a delta counts once for the bound and once for the path: three 2
publish start=0 delta=3 bound=0
at 4
open 0:alice => TooLate 3
at 3
refund => NotExpired 4
at 4
refund
== heights are counted in 64 bits: three 0
publish start=0 delta=1000000 bound=4292
refund => NotExpired 8585000001
at 1000000
open 0:bob,carol,alice
== the greatest terms are counted in 64 bits: three 0
publish start=1000000 delta=1000000 bound=1000000 timelock=1000000
at 1000000
refund => NotExpired 2000002000001
open 0:bob,carol,alice
claim
== the hashlock is the published one: three 0
publish locks=other
open 0:bob,carol,alice => WrongSecret
open 0:bob,carol,alice; secret of other
claim
== each lock has its own published hashlock: two_leaders 0
publish locks=bob,alice
open 0:bob,alice => WrongSecret
open 1:bob => WrongSecret
open 0:bob,alice; secret of bob
open 1:bob; secret of alice
claim
== a claim pays the amount that was published, where the arc's is greater: three 0
publish amount=99
open 0:bob,carol,alice
claim
== a refund gives back the amount that was published, where the arc's is greater: three 0
publish amount=99
at 61
refund
== a claim pays into an account that has units, and a publish leaves what the party has: three 0 1000 55
publish amount=60
open 0:bob,carol,alice
claim
== a refund goes to an account that has units: three 0 1000 55
publish amount=60
at 61
refund
== nothing is published and nothing moves: three 0
publish amount=0
open 0:bob,carol,alice
claim
== a claim waits for each lock, and tells the least that is closed: two_leaders 0
publish
claim => StillLocked 0
open 1:bob
claim => StillLocked 0
claim by alice => NotCounterparty
open 0:bob,alice
claim
== a claim tells a later lock, where the first is opened: two_leaders 0
publish
open 0:bob,alice
claim => StillLocked 1
at 63
claim => StillLocked 1
== a claim has no height: three 0
publish
claim => StillLocked 0
at 60
open 0:bob,carol,alice
at 1000000
claim
== nothing is refunded where every lock is opened, at any height: three 0
publish
open 0:bob,carol,alice
refund => NothingLocked
at 61
refund => NothingLocked
claim
== a refund is accepted above the expiry, not at it: three 0
publish
refund => NotExpired 61
at 60
refund => NotExpired 61
at 61
refund
== version 1 knows no shorter expiry for the leader's own arc: three 2
publish
at 60
refund => NotExpired 61
at 61
refund
== version 1 knows no shorter expiry with two leaders: two_leaders 0
publish
at 62
refund => NotExpired 63
open 0:bob,alice => TooLate 52
at 63
refund
== in version 2 a lock of the counterparty's own expires sooner: two_payments 2
publish
at 30
refund => NotExpired 31
at 31
refund
== in version 2 another's lock expires as ever: two_payments 0
publish
at 40
refund => NotExpired 41
at 41
refund
== the least expiry of the closed locks counts: two_leaders_2 0
publish
at 42
refund => NotExpired 43
at 43
refund
== the expiry of an opened lock doesn't count: two_leaders_2 0
publish
open 1:bob
at 43
refund => NotExpired 63
at 62
refund => NotExpired 63
at 63
refund
== the expiry of a closed lock counts, where a later one is opened: two_leaders_2 1
publish
refund => NotExpired 43
open 0:alice
at 62
refund => NotExpired 63
at 63
refund
== the own expiry in version 2 comes from the published terms: two_leaders_2 0
publish start=13 delta=7 bound=4
at 47
refund => NotExpired 49
open 1:bob
at 48
refund => NotExpired 77
== in version 2 paths decide as in version 1: two_leaders_2 2
publish
at 63
open 1:carol,alice,bob => TooLate 62
at 52
open 0:carol,alice
at 62
open 1:carol,alice,bob
claim
== with timelocks the secret alone opens, up to the timelock: three_timelocks 0
publish
at 61
open 0:alice; the secret alone => TooLate 60
at 60
refund => NotExpired 61
open 0:alice; the secret alone
refund => NothingLocked
claim
== with timelocks a hashkey has neither a path nor signatures: three_timelocks 2
publish
open 0:alice => WrongPath
open 0:alice; no path => WrongPath
open 0:alice; no signatures => WrongPath
open 0:alice; another secret => WrongSecret
open 0:alice; the secret alone; another secret => WrongSecret
at 41
open 0:alice => WrongPath
open 0:alice; the secret alone => TooLate 40
at 40
open 0:alice; the secret alone
== with timelocks the timelock is the published one: three_timelocks 0
publish timelock=45 start=1 delta=2 bound=3
at 46
open 0:alice; the secret alone => TooLate 45
at 45
refund => NotExpired 46
at 46
refund
== with timelocks what stays closed is refunded: three_timelocks 1
publish
at 50
refund => NotExpired 51
at 51
refund
== with timelocks the hashlock is the published one: three_timelocks 0
publish locks=other
open 0:alice; the secret alone => WrongSecret
open 0:alice; the secret alone; secret of other
claim
== a lock that the deal doesn't have is a BadCall, before every row: three 0
open 0:bob,carol,alice; lock 1 => BadCall
publish
open 0:bob,carol,alice; lock 1 => BadCall
open 0:bob,carol,alice; lock 1 by alice => BadCall
open 0:bob,carol,alice; lock 255 => BadCall
open 0:bob,carol,alice
== a third lock of two is a BadCall, and a fourth party of three: two_leaders 0
publish
open 1:bob; party 3 => BadCall
open 1:bob; lock 2 => BadCall
open 1:bob
== a party that the deal doesn't have is a BadCall, before every row: three 0
publish
open 0:bob,carol,alice; party 3 => BadCall
open 0:bob,carol,alice; party 255; another secret => BadCall
open 0:bob,carol,alice; party 2 => WrongPath
== a signature of another length than 2,144 bytes is a BadCall, before every row: three 0
publish
open 0:bob,carol,alice; a byte more of the first signature => BadCall
open 0:bob,carol,alice; a byte more of the last signature => BadCall
open 0:bob,carol,alice; a byte less of the first signature => BadCall
open 0:bob,carol,alice; a byte more of the first signature; another secret by alice => BadCall
open 0:bob,carol,alice
== with timelocks a signature of another length is a BadCall too: three_timelocks 0
publish
open 0:bob,carol,alice; a byte more of the first signature => BadCall
== in version 1 a path or a list of signatures of more than 24 is a BadCall: three 2
publish
open 0:alice; no signatures; 24 parties => WrongPath
open 0:alice; no signatures; 25 parties => BadCall
open 0:alice; no path; 24 signatures => WrongPath
open 0:alice; no path; 25 signatures => BadCall
== in version 2 a path or a list of signatures of more than 32 is a BadCall: two_payments 2
publish
open 0:alice; no signatures; 32 parties => WrongPath
open 0:alice; no signatures; 33 parties => BadCall
open 0:alice; no path; 32 signatures => WrongPath
open 0:alice; no path; 33 signatures => BadCall
== terms above 1,000,000 are a BadCall, before every row: three 0
publish start=1000001 => BadCall
publish delta=1000001 => BadCall
publish bound=1000001 => BadCall
publish timelock=1000001 => BadCall
publish start=1000001 by bob => BadCall
publish
publish start=1000001 => BadCall
== an amount above 10^12 is a BadCall: three 0 2000000000000 0
publish amount=1000000000001 => BadCall
publish amount=1000000000000 => NoFunds 100
== a publish has as many hashlocks as the deal has leaders: three 0
publish locks=none => BadCall
publish locks=alice,bob => BadCall
publish
== a publish has a hashlock for each of two leaders: two_leaders 0
publish locks=alice => BadCall
publish locks=alice,bob,alice => BadCall
publish
== a refusal changes nothing: three 0
publish amount=101 => NoFunds 100
publish by bob => NotParty
publish
open 0:bob,carol,alice by alice => NotCounterparty
open 0:bob,carol,alice; another secret => WrongSecret
open 0:bob,carol => WrongPath
open 0:bob,carol,alice; a bit of the last signature => WrongSignature
at 61
open 0:bob,carol,alice => TooLate 60
claim => StillLocked 0
at 60
refund => NotExpired 61
open 0:bob,carol,alice
refund => NothingLocked
claim
"""
