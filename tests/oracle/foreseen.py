"""What a call will do, told from the model's state before it: which known differences it meets, and what a maintenance will rewrite."""
import collections

from model import BATCH_BIT, HEADER, Refused, batch_operations, file_bytes, shard

Rewrite = collections.namedtuple('Rewrite', 'cut sunk groups shards longest small')


def rewriting(store):
    """the maintenance that comes. cut: could a shard be cut, its entries taken in some order? sunk: does a live count pass 0? Of the groups
    that are large enough: the files of each, the shards, the longest body; small: is a file there for its size alone?"""
    table, given = store.table(), store.given
    cut, sunk, groups, shards, longest, small = False, False, [], set(), 0, False
    for group in store.candidates(store.next, len(store.files())).values():
        met = len(group) >= given.min_files
        sizes = collections.defaultdict(list)
        try:
            for slot in group:
                kept = store.survivors(slot, table)
                *_, present, _, live, _ = store.records[slot]
                sunk = sunk or met and len(kept) > live
                small = small or met and live * 100 // max(present, 1) >= given.percent
                for body in kept.values():
                    sizes[shard(body)].append(0 if body is None else HEADER + len(body))
        except Refused:
            continue
        cut = cut or any(sum(s) - min(s) > given.target for s in sizes.values())
        if met:
            groups.append(len(group))
            shards |= sizes.keys()
            longest = max([longest] + [max(s) - HEADER for s in sizes.values()])
    return Rewrite(cut, sunk, groups, shards, longest, small)


def replacing(store, batch):
    """the known difference (known.py) of a write that comes, or None: only a table that was changed by its own calls has one"""
    entries = sorted(dict(batch_operations(batch)).items())
    lsn, table = store.next | BATCH_BIT, store.table()
    lost = collections.Counter()
    for ident, relative in file_bytes(entries)[2]:
        if ident in table:
            if table[ident] >= relative + 2 * lsn:
                return 'greater location kept'
            if table[ident] >= 2 * lsn:
                return 'live one lost by the new file'
            lost[store.found(table[ident])] += 1
    if None in lost:
        return 'no file to lose a live one'
    return 'live count at 0' if any(n > store.records[slot][5] for slot, n in lost.items()) else None
