"""Scripts that the benchmarks run: each function writes one for `count` nodes, transactions or SETs."""
import random

GETS = 100000
JOBS = 8
ACCOUNTS = 32


def write(file, lines):
    file.writelines(line + "\n" for line in lines)


def sets(file, numbers, name="^A"):
    write(file, (f"1 SET {name}({i})={i}" for i in numbers))


def gets(file, count, source):
    write(file, (f"1 $GET(^A({source.randint(1, count)}))" for _ in range(GETS)))


def shuffled_numbers(count, source):
    numbers = list(range(1, count + 1))
    source.shuffle(numbers)
    return numbers


def rising(file, count):
    sets(file, range(1, count + 1))
    gets(file, count, random.Random(1))


def shuffled(file, count):
    source = random.Random(1)
    sets(file, shuffled_numbers(count, source))
    gets(file, count, source)


def shuffled_both(file, count):
    """As many $GETs as SETs."""
    source = random.Random(1)
    sets(file, shuffled_numbers(count, source))
    write(file, (f"1 $GET(^A({source.randint(1, count)}))" for _ in range(count)))


def falling(file, count):
    sets(file, range(count, 0, -1))


def order_walk(file, count):
    sets(file, range(1, count + 1))
    write(file, ['1 $ORDER(^A(""))'])
    write(file, (f"1 $ORDER(^A({i}))" for i in range(1, count + 1)))


def query_walk(file, count):
    write(file, (f"1 SET ^A({i // 10},{i % 10})={i}" for i in range(1, count + 1)))
    write(file, ["1 $QUERY(^A)"])
    write(file, (f"1 $QUERY(^A({i // 10},{i % 10}))" for i in range(1, count + 1)))


def walks(file, count):
    """Forward by $ORDER, and backward by $QUERY."""
    sets(file, range(1, count + 1))
    write(file, (f"1 $ORDER(^A({i}))" for i in range(1, count + 1)))
    write(file, (f"1 $QUERY(^A({i}),-1)" for i in range(count, 0, -1)))


def merges(file, count, names):
    sets(file, range(1, count + 1), "^M")
    write(file, (f"1 MERGE {name}=^M" for name in names))


def merge_later(file, count):
    merges(file, count, ["^N", "^O", "^P", "^Q", "^R"])


def merge_earlier(file, count):
    merges(file, count, ["^L", "^K", "^J", "^I", "^H"])


def kill_whole(file, count):
    """Five times nodes are merged into another name, and that is killed."""
    sets(file, range(1, count + 1), "^M")
    for _ in range(5):
        write(file, ["1 MERGE ^A=^M", "1 KILL ^A"])


def kill_front(file, count):
    sets(file, range(1, count + 1))
    write(file, (f"1 KILL ^A({i})" for i in range(1, count + 1)))


def interleaved(file, count):
    for i in range(1, count // 2 + 1):
        write(file, [f"1 SET ^A({i})={i}", f"1 SET ^B({i})={i}"])


def records(file, count):
    """Two fields of a record, and an entry of an index by name."""
    source = random.Random(1)
    for i in range(1, count // 3 + 1):
        name = f'"{source.choice(SURNAMES)}, {source.randint(0, 99999):05}"'
        year = source.randint(1930, 2020)
        write(file, [f'1 SET ^P({i},"name")={name}', f'1 SET ^P({i},"born")={year}', f'1 SET ^N({name},{i})=""'])


SURNAMES = ["Okafor", "Lindqvist", "Moreau", "Ahmadi", "Brandt", "Castro", "Dvorak", "Eriksen", "Fontaine", "Gupta", "Haddad", "Ito"]


def few_keys(file, count):
    write(file, (f"1 SET ^A({i % 1000})={i}" for i in range(count)))


def queue(file, count):
    sets(file, range(1, count + 1))
    for i in range(1, count + 1):
        write(file, ['1 $ORDER(^A(""))', f"1 KILL ^A({i})"])


def account_work(file, job, accounts, value):
    write(file, (f"{job} $GET(^Account({account}))" for account in accounts))
    write(file, (f"{job} SET ^Account({account})={value}" for account in accounts))


def transactions(file, count, accounts=ACCOUNTS):
    """Eight jobs begin, each reads and writes two of some accounts, and they commit in turn; one that was overtaken does its
    commands again and commits at once. Answers how many are overtaken."""
    source = random.Random(1)
    restarts = 0
    for done in range(0, count, JOBS):
        chosen = {job: source.sample(range(accounts), 2) for job in range(1, JOBS + 1)}
        write(file, (f"{job} TSTART" for job in chosen))
        for job, own in chosen.items():
            account_work(file, job, own, done + job)
        written = set()
        for job, own in chosen.items():
            write(file, [f"{job} TCOMMIT"])
            if written & set(own):
                restarts += 1
                account_work(file, job, own, done + job)
                write(file, [f"{job} TCOMMIT"])
            written |= set(own)
    return restarts


def open_transaction(file, count):
    """Two transactions are open while another job sets 1,000 keys again and again: one has read such a key, and one hasn't."""
    write(file, ["2 TSTART", "2 $GET(^A(1))", "3 TSTART", "3 $GET(^B)"])
    few_keys(file, count)
    write(file, ["2 SET ^C=2", "2 TCOMMIT", "3 SET ^C=3", "3 TCOMMIT"])
    return 1


def range_read(file, count):
    """200 transactions that read a range over all nodes each, and commit after a SET elsewhere."""
    sets(file, range(1, count + 1))
    for i in range(200):
        write(file, ["2 TSTART", "2 $DATA(^A)", f"1 SET ^B={i}", f"2 SET ^C={i}", "2 TCOMMIT"])
    return 0


def taken_locks(file, jobs, names):
    """Each job takes as many names of its own, at three levels."""
    for job in range(1, jobs + 1):
        listed = ",".join(f"^Ward({job},{name // 10},{name % 10})" for name in range(names))
        write(file, [f"{job} LOCK +({listed})"])


def lock_tries(file, jobs, names, tries, free):
    """Jobs ask for names of others, which are blocked, or for free ones next to them, which they release."""
    source = random.Random(1)
    for _ in range(tries):
        job, other = source.randint(1, jobs), source.randint(1, jobs)
        if other == job:
            other = other % jobs + 1
        name = names + 10 if free else source.randrange(names)
        write(file, [f"{job} LOCK +^Ward({other},{name // 10},{name % 10})"])
        if free:
            write(file, [f"{job} LOCK -^Ward({other},{name // 10},{name % 10})"])


def locks(file, count):
    """As many names held by jobs with 100 each, at most 4,096 jobs; then half as many tries that are blocked as `count`, and as many for free names."""
    jobs = max(2, min(4096, count // 100))
    taken_locks(file, jobs, 100)
    lock_tries(file, jobs, 100, count // 2, False)
    lock_tries(file, jobs, 100, count // 2, True)


def one_key_while_open(file, count):
    write(file, ["2 TSTART", "2 $GET(^B)"])
    write(file, (f"1 SET ^A={i}" for i in range(count)))


def queue_by_transactions(file, count):
    """Each node is taken from the front by a transaction of its own."""
    sets(file, range(1, count + 1))
    for i in range(1, count + 1):
        write(file, ["1 TSTART", '1 $ORDER(^A(""))', f"1 KILL ^A({i})", "1 TCOMMIT"])


def queue_while_open(file, count):
    """Killed nodes are kept as absences for a transaction, and each $ORDER passes over them."""
    sets(file, range(1, count + 1))
    write(file, ["2 TSTART"])
    for i in range(1, count + 1):
        write(file, ['1 $ORDER(^A(""))', f"1 KILL ^A({i})"])


def orders_after(file, count):
    """The transaction has ended, and the absences are still there."""
    sets(file, range(1, count + 1))
    write(file, ["2 TSTART"])
    write(file, (f"1 KILL ^A({i})" for i in range(1, count)))
    write(file, ["2 TCOMMIT"])
    write(file, ('1 $ORDER(^A(""))' for _ in range(count)))


def queue_inside(file, count):
    """A transaction takes nodes from the front, and each $ORDER passes over what it killed."""
    sets(file, range(1, count + 1))
    write(file, ["1 TSTART"])
    for i in range(1, count + 1):
        write(file, ['1 $ORDER(^A(""))', f"1 KILL ^A({i})"])
    write(file, ["1 TCOMMIT"])


def locks_inside(file, count):
    """A job that holds many names takes one more in each of as many transactions."""
    taken = ",".join(f"^Held({i})" for i in range(count))
    write(file, [f"1 LOCK +({taken})"])
    for i in range(count):
        write(file, ["1 TSTART", f"1 LOCK +^Next({i})", "1 TCOMMIT", f"1 LOCK -^Next({i})"])
