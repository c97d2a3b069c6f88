"""The misreadings of misreadings.py as they are said in tests/oracle/model.py: of each the words there, and those in their place, one pair or more.

Not every one can be said there: some are about words of the definitions alone."""

IN_MODEL = {
    'any-tag-a-put': [
        ('refuse_if(got is None or got[1] >= len(batch) or batch[got[1]] > 1, 2)',
         'refuse_if(got is None or got[1] >= len(batch), 2)'),
        ('if batch[tag_at] == 1:',
         'if batch[tag_at] != 0:'),
    ],
    'body-cut-short-taken': [
        ('refuse_if(got is None or got[0] > len(batch) - got[1], 2)',
         'refuse_if(got is None or got[0] > len(batch), 2)'),
    ],
    'limit-itself-taken': [
        ('len(b) >= self.given.max_object for',
         'len(b) > self.given.max_object for'),
    ],
    'tags-swapped': [
        ('if batch[tag_at] == 1:',
         'if batch[tag_at] == 0:'),
    ],
    'put-of-no-bytes-refused': [
        ('refuse_if(got is None or got[0] > len(batch) - got[1], 2)',
         'refuse_if(got is None or got[0] > len(batch) - got[1] or got[0] == 0, 2)'),
    ],
    'body-to-the-end-refused': [
        ('refuse_if(got is None or got[0] > len(batch) - got[1], 2)',
         'refuse_if(got is None or got[0] >= len(batch) - got[1], 2)'),
    ],
    'empty-batch-malformed': [
        ('    operations, at = [], 0\n'
         '    while',
         '    refuse_if(not batch, 2)\n'
         '    operations, at = [], 0\n'
         '    while'),
    ],
    'rest-of-batch-ignored': [
        ('refuse_if(got is None or got[1] >= len(batch) or batch[got[1]] > 1, 2)',
         'if got is None or got[1] >= len(batch) or batch[got[1]] > 1:\n'
         '            break'),
    ],
    'limit-with-header': [
        ('len(b) >= self.given.max_object for',
         'len(b) + 20 >= self.given.max_object for'),
    ],
    'first-counts': [
        ('entries = sorted(dict(operations).items())',
         'entries = sorted(dict(reversed(operations)).items())'),
    ],
    'delete-adds-20': [
        ('places.append((ident, raw_location(len(objects), body is None)))',
         'places.append((ident, raw_location(len(objects) + 20 * sum(r % 2 for _, r in places), body is None)))'),
        ('(0 if body is None else HEADER + len(body))',
         '(20 if body is None else HEADER + len(body))'),
    ],
    'delete-in-shard-1': [
        ('return 0 if body is None else len(body).bit_length()',
         'return 1 if body is None else len(body).bit_length()'),
    ],
    'shard-by-object-bytes': [
        ('else len(body).bit_length()',
         'else (20 + len(body)).bit_length()'),
    ],
    'delete-has-object-bytes': [
        ('        if body is not None:\n'
         '            objects += object_bytes(ident, body)',
         "        objects += object_bytes(ident, body or b'')"),
    ],
    'delete-at-position-0': [
        ('places.append((ident, raw_location(len(objects), body is None)))',
         'places.append((ident, raw_location(0 if body is None else len(objects), body is None)))'),
    ],
    'position-behind-object': [
        ('places.append((ident, raw_location(len(objects), body is None)))',
         'places.append((ident, raw_location(len(objects) + (0 if body is None else 20 + len(body)), body is None)))'),
    ],
    'delete-not-marked': [
        ('places.append((ident, raw_location(len(objects), body is None)))',
         'places.append((ident, raw_location(len(objects), False)))'),
    ],
    'trailer-before-objects': [
        ("return bytes(objects) + zlib.crc32(listed).to_bytes(4, 'little') + listed, len(objects), places",
         "return zlib.crc32(listed).to_bytes(4, 'little') + listed + bytes(objects), len(objects), places"),
    ],
    'ids-descending': [
        ('entries = sorted(dict(operations).items())',
         'entries = sorted(dict(operations).items(), key=itemgetter(0), reverse=True)'),
        ('return self.split(sorted(kept.items()))',
         'return self.split(sorted(kept.items(), key=itemgetter(0), reverse=True))'),
    ],
    'overridden-not-refused': [
        ('for _, b in operations), 3)',
         'for b in dict(operations).values()), 3)'),
    ],
    'six-before-four': [
        ('        self.check_room([entries])\n'
         '        table = self.table()\n'
         '        refuse_if(len(table.keys() | {i for i, _ in entries}) > self.entries(), 6)\n',
         '        table = self.table()\n'
         '        refuse_if(len(table.keys() | {i for i, _ in entries}) > self.entries(), 6)\n'
         '        self.check_room([entries])\n'),
    ],
    'two-before-one': [
        ('    def write(self, batch):\n'
         '        self.check_state()\n'
         '        operations = batch_operations(batch)\n',
         '    def write(self, batch):\n'
         '        operations = batch_operations(batch)\n'
         '        self.check_state()\n'),
    ],
    'full-table-not-written': [
        ('{i for i, _ in entries}) > self.entries(), 6)',
         '{i for i, _ in entries}) >= self.entries(), 6)'),
    ],
    'empty-batch-a-file': [
        ('        if not operations:\n'
         '            return\n',
         ''),
    ],
    'batch-ids-alone': [
        ('len(table.keys() | {i for i, _ in entries}) > self.entries(), 6)',
         'len(entries) > self.entries(), 6)'),
    ],
    'ids-counted-twice': [
        ('len(table.keys() | {i for i, _ in entries}) > self.entries(), 6)',
         'len(table) + len(entries) > self.entries(), 6)'),
    ],
    'written-without-bit': [
        ('self.install(entries, 0, BATCH_BIT)',
         'self.install(entries, 0, 0)'),
    ],
    'written-in-generation-1': [
        ('self.install(entries, 0, BATCH_BIT)',
         'self.install(entries, 1, BATCH_BIT)'),
    ],
    'batch-not-settled': [
        ('entries = sorted(dict(operations).items())',
         'entries = list(operations)'),
    ],
    'seven-before-six': [
        ('        refuse_if(len(table.keys() | {i for i, _ in entries}) > self.entries(), 6)\n'
         '        self.check_next([entries], self.next)\n',
         '        self.check_next([entries], self.next)\n'
         '        refuse_if(len(table.keys() | {i for i, _ in entries}) > self.entries(), 6)\n'),
    ],
    'four-before-three': [
        ('        refuse_if(any(b is not None and len(b) >= self.given.max_object for _, b in operations), 3)\n'
         '        if not operations:\n'
         '            return\n'
         '        entries = sorted(dict(operations).items())\n'
         '        self.check_room([entries])\n',
         '        entries = sorted(dict(operations).items())\n'
         '        if operations:\n'
         '            self.check_room([entries])\n'
         '        refuse_if(any(b is not None and len(b) >= self.given.max_object for _, b in operations), 3)\n'
         '        if not operations:\n'
         '            return\n'),
    ],
    'position-2^62-refused': [
        ('base + spans(files) > BATCH_BIT, 7)',
         'base + spans(files) >= BATCH_BIT, 7)'),
    ],
    'positions-by-T': [
        ('return sum(file_bytes(f)[1] + 1 for f in files)',
         'return sum(file_bytes(f)[1] for f in files)'),
    ],
    'full-slot-not-written': [
        ('LABEL + len(file_bytes(f)[0]) > self.given.slot_bytes',
         'LABEL + len(file_bytes(f)[0]) >= self.given.slot_bytes'),
    ],
    'label-not-counted': [
        ('LABEL + len(file_bytes(f)[0]) > self.given.slot_bytes',
         'len(file_bytes(f)[0]) > self.given.slot_bytes'),
    ],
    'slots-before-size': [
        ('        refuse_if(any(LABEL + len(file_bytes(f)[0]) > self.given.slot_bytes for f in files), 4)\n'
         '        refuse_if(len(self.empty_slots()) - taken < len(files), 5)\n',
         '        refuse_if(len(self.empty_slots()) - taken < len(files), 5)\n'
         '        refuse_if(any(LABEL + len(file_bytes(f)[0]) > self.given.slot_bytes for f in files), 4)\n'),
    ],
    'next-without-1': [
        ('self.next += trailer_offset + 1',
         'self.next += trailer_offset'),
    ],
    'present-without-deletes': [
        ('numbers = (lsn, trailer_offset, len(data), len(entries), generation)',
         'numbers = (lsn, trailer_offset, len(data), sum(b is not None for _, b in entries), generation)'),
    ],
    'live-without-deletes': [
        ('self.records[slot] = numbers + (len(entries), 0)  # clear on writing',
         'self.records[slot] = numbers + (sum(b is not None for _, b in entries), 0)'),
    ],
    'T-with-trailer': [
        ('numbers = (lsn, trailer_offset, len(data), len(entries), generation)',
         'numbers = (lsn, len(data), len(data), len(entries), generation)'),
    ],
    'file-size-without-trailer': [
        ('numbers = (lsn, trailer_offset, len(data), len(entries), generation)',
         'numbers = (lsn, trailer_offset, trailer_offset, len(entries), generation)'),
    ],
    'file-size-with-label': [
        ('numbers = (lsn, trailer_offset, len(data), len(entries), generation)',
         'numbers = (lsn, trailer_offset, 64 + len(data), len(entries), generation)'),
    ],
    'file-found-after-adding': [
        ('        self.records[slot] = numbers + (len(entries), 0)  # clear on writing\n',
         ''),
        ('        for ident, _ in places:\n'
         '            loser',
         '        numbers = (lsn, trailer_offset, len(data), len(entries), generation)\n'
         '        self.records[slot] = numbers + (len(entries), 0)  # clear on writing\n'
         '        for ident, _ in places:\n'
         '            loser'),
    ],
    'no-live-lost': [
        ('max(live - 1, 0)',
         'live'),
    ],
    'delete-takes-no-live': [
        ('        for ident, _ in places:\n'
         '            loser',
         '        for ident, place in places:\n'
         '            if place % 2:\n'
         '                continue\n'
         '            loser'),
    ],
    'relative-locations-stored': [
        ('{i: r + 2 * lsn for i, r in places}',
         'dict(places)'),
    ],
    'next-by-file-size': [
        ('self.next += trailer_offset + 1',
         'self.next += len(data) + 1'),
    ],
    'seven-without-a-file': [
        ('        if not operations:\n'
         '            return\n',
         '        if not operations:\n'
         '            refuse_if(self.next > BATCH_BIT, 7)\n'
         '            return\n'),
        ('refuse_if(files and base',
         'refuse_if(base'),
    ],
    'one-empty-slot-enough': [
        ('len(self.empty_slots()) - taken < len(files), 5)',
         'len(self.empty_slots()) - taken < 1, 5)'),
    ],
    'positions-by-greatest': [
        ('base + spans(files) >',
         'base + max(spans([f]) for f in files) >'),
    ],
    'file-at-slot-start': [
        ('self.heap[at:at + LABEL + len(data)] = label_bytes(numbers) + data',
         'self.heap[at:at + len(data)] = data\n'
         '        self.heap[at:at + LABEL] = label_bytes(numbers)'),
    ],
    'zero-behind-file': [
        ('self.heap[at:at + LABEL + len(data)] = label_bytes(numbers) + data',
         'self.heap[at:at + LABEL + len(data)] = label_bytes(numbers) + data\n'
         '        if at + LABEL + len(data) < len(self.heap):\n'
         '            self.heap[at + LABEL + len(data)] = 0'),
    ],
    'ten-before-sixteen': [
        ('        refuse_if(at + HEADER + length > file_size, 16)\n'
         '        body = self.file_part(slot, at + HEADER, at + HEADER + length)\n'
         '        refuse_if(object_sum(stored, body) != le(header, 0, 4), 10)\n',
         '        body = self.file_part(slot, at + HEADER, min(at + HEADER + length, file_size))\n'
         '        refuse_if(object_sum(stored, body) != le(header, 0, 4), 10)\n'
         '        refuse_if(at + HEADER + length > file_size, 16)\n'),
    ],
    'seventeen-before-ten': [
        ('        refuse_if(object_sum(stored, body) != le(header, 0, 4), 10)\n'
         '        refuse_if(stored != ident, 17)\n',
         '        refuse_if(stored != ident, 17)\n'
         '        refuse_if(object_sum(stored, body) != le(header, 0, 4), 10)\n'),
    ],
    'deleted-refused': [
        ('        if kind != OBJECT:\n',
         '        refuse_if(kind == DELETED, 18)\n'
         '        if kind != OBJECT:\n'),
    ],
    'unmapped-refused': [
        ('        if kind != OBJECT:\n',
         '        refuse_if(kind == NEVER, 18)\n'
         '        if kind != OBJECT:\n'),
    ],
    'no-file-nothing': [
        ('        refuse_if(slot is None, 18)\n',
         '        if slot is None:\n'
         '            return NEVER, None\n'),
    ],
    'read-body-not-tested': [
        ('        refuse_if(at + HEADER + length > file_size, 16)\n'
         '        body = self.file_part(slot, at + HEADER, at + HEADER + length)\n',
         '        body = self.file_part(slot, at + HEADER, min(at + HEADER + length, file_size))\n'),
    ],
    'read-within-T': [
        ('        lsn, _, file_size, *_ = self.records[slot]\n'
         '        at',
         '        lsn, file_size, *_ = self.records[slot]\n'
         '        at'),
    ],
    'other-id-taken': [
        ('        refuse_if(stored != ident, 17)\n',
         ''),
    ],
    'read-checksum-not-asked': [
        ('        refuse_if(object_sum(stored, body) != le(header, 0, 4), 10)\n',
         ''),
    ],
    'deleted-read': [
        ('        if kind != OBJECT:\n',
         '        if kind == NEVER:\n'),
    ],
    'read-1-not-asked': [
        ('        self.check_state()\n'
         '        kind, raw = ',
         '        kind, raw = '),
    ],
    'claim-of-claimed': [
        ('refuse_if(slot >= self.slots() or self.records[slot] == EMPTY or self.claimed(slot) == wanted, 21)',
         'refuse_if(slot >= self.slots() or self.records[slot] == EMPTY or (not wanted and not self.claimed(slot)), 21)'),
        ('self.claims ^= 1 << slot',
         'self.claims = self.claims | 1 << slot if wanted else self.claims & ~(1 << slot)'),
    ],
    'release-of-unclaimed': [
        ('refuse_if(slot >= self.slots() or self.records[slot] == EMPTY or self.claimed(slot) == wanted, 21)',
         'refuse_if(slot >= self.slots() or self.records[slot] == EMPTY or (wanted and self.claimed(slot)), 21)'),
        ('self.claims ^= 1 << slot',
         'self.claims = self.claims | 1 << slot if wanted else self.claims & ~(1 << slot)'),
    ],
    'empty-slot-claimed': [
        ('refuse_if(slot >= self.slots() or self.records[slot] == EMPTY or self.claimed(slot) == wanted, 21)',
         'refuse_if(slot >= self.slots() or self.claimed(slot) == wanted, 21)'),
    ],
    'claim-forgets-others': [
        ('self.claims ^= 1 << slot',
         'self.claims = 1 << slot | self.claims & ~(((1 << 64) - 1) << slot // 64 * 64) if wanted else self.claims ^ 1 << slot'),
    ],
    'release-forgets-others': [
        ('self.claims ^= 1 << slot',
         'self.claims = self.claims | 1 << slot if wanted else self.claims & ~(((1 << 64) - 1) << slot // 64 * 64)'),
    ],
    'claimed-file-pruned': [
        ('if record[5] == 0 and not self.claimed(slot):',
         'if record[5] == 0:'),
    ],
    'one-live-pruned': [
        ('if record[5] == 0 and',
         'if record[5] <= 1 and'),
    ],
    'empty-slot-pruned': [
        ('        for slot, record in self.files():\n'
         '            if record[5]',
         '        for slot, record in list(enumerate(self.records))[:self.slots()]:\n'
         '            if record[5]'),
    ],
    'pruned-record-kept': [
        ('                self.heap[slot * self.given.slot_bytes] = 0\n'
         '                self.records[slot] = EMPTY',
         '                self.heap[slot * self.given.slot_bytes] = 0'),
    ],
    'pruned-label-kept': [
        ('                self.heap[slot * self.given.slot_bytes] = 0\n'
         '                self.records[slot] = EMPTY',
         '                self.records[slot] = EMPTY'),
    ],
    'last-label-byte-zeroed': [
        ('                self.heap[slot * self.given.slot_bytes] = 0\n'
         '                self.records',
         '                self.heap[slot * self.given.slot_bytes + 63] = 0\n'
         '                self.records'),
    ],
    'prune-1-not-asked': [
        ('    def prune(self):\n'
         '        self.check_state()\n',
         '    def prune(self):\n'),
    ],
    'first-generation-left-out': [
        ('groups.setdefault(min(generation + 1, 3), []).append(slot)',
         'groups.setdefault(min(generation + 1, 3), []).append(slot)\n'
         '        groups.pop(1, None)'),
    ],
    'group-of-minimum-skipped': [
        ('return slots if len(slots) >= self.given.min_files',
         'return slots if len(slots) > self.given.min_files'),
    ],
    'percent-itself-taken': [
        ('live * 100 // max(present, 1) < s.percent',
         'live * 100 // max(present, 1) <= s.percent'),
    ],
    'generation-4': [
        ('min(generation + 1, 3)',
         'generation + 1'),
    ],
    'percent-of-whole-live': [
        ('live * 100 // max(present, 1) < s.percent',
         'live // max(present, 1) * 100 < s.percent'),
    ],
    'present-not-raised-to-1': [
        ('live * 100 // max(present, 1) < s.percent',
         '(live * 100 // present if present else 0) < s.percent'),
    ],
    'threshold-to-be-passed': [
        ('count >= s.threshold and',
         'count > s.threshold and'),
    ],
    'many-files-or-small': [
        ('count >= s.threshold and',
         'count >= s.threshold or'),
    ],
    'small-up-to-target': [
        ('file_size * s.min_files < s.target',
         'file_size * s.min_files <= s.target'),
    ],
    'small-by-size-alone': [
        ('file_size * s.min_files < s.target',
         'file_size < s.target'),
    ],
    'claimed-file-a-candidate': [
        ('live != 0 and not self.claimed(slot) and (sparse',
         'live != 0 and (sparse'),
    ],
    'dead-file-a-candidate': [
        ('mark and live != 0 and not self.claimed(slot) and (sparse',
         'mark and not self.claimed(slot) and (sparse'),
    ],
    'grouped-by-own-generation': [
        ('groups.setdefault(min(generation + 1, 3), []).append(slot)',
         'groups.setdefault(generation, []).append(slot) if 1 <= generation <= 3 else None'),
    ],
    'candidates-chosen-anew': [
        ('self.rewrite(generation, planned.mark, planned.count)',
         'self.rewrite(generation, U64, len(self.files()))'),
    ],
    'generations-descending': [
        ('        for generation in GENERATIONS:\n'
         '            try:\n'
         '                moved += self.rewrite(generation, planned.mark, planned.count)\n',
         '        for generation in reversed(GENERATIONS):\n'
         '            try:\n'
         '                moved += self.rewrite(generation, planned.mark, planned.count)\n'),
    ],
    'length-before-header': [
        ('            refuse_if(at + HEADER > trailer_offset, 16)\n'
         '            ident, length = le(data, at + 4), le(data, at + 12)\n'
         '            refuse_if(length >= self.given.max_object, 3)\n',
         '            ident, length = le(data[:trailer_offset], at + 4), le(data[:trailer_offset], at + 12)\n'
         '            refuse_if(length >= self.given.max_object, 3)\n'
         '            refuse_if(at + HEADER > trailer_offset, 16)\n'),
    ],
    'unmapped-before-length': [
        ('            refuse_if(length >= self.given.max_object, 3)\n'
         '            refuse_if(ident not in table, 18)\n',
         '            refuse_if(ident not in table, 18)\n'
         '            refuse_if(length >= self.given.max_object, 3)\n'),
    ],
    'body-before-unmapped': [
        ('            refuse_if(ident not in table, 18)\n'
         '            refuse_if(at + HEADER + length > trailer_offset, 16)\n',
         '            refuse_if(at + HEADER + length > trailer_offset, 16)\n'
         '            refuse_if(ident not in table, 18)\n'),
    ],
    'checksum-before-body': [
        ('            refuse_if(at + HEADER + length > trailer_offset, 16)\n'
         '            body = data[at + HEADER:at + HEADER + length]\n'
         '            refuse_if(object_sum(ident, body) != le(data, at, 4), 10)\n',
         '            body = data[at + HEADER:at + HEADER + length][:max(trailer_offset - at - HEADER, 0)]\n'
         '            refuse_if(object_sum(ident, body) != le(data, at, 4), 10)\n'
         '            refuse_if(at + HEADER + length > trailer_offset, 16)\n'),
    ],
    'length-over-limit': [
        ('            refuse_if(length >= self.given.max_object, 3)\n',
         '            refuse_if(length > self.given.max_object, 3)\n'),
    ],
    'delete-unmapped-first': [
        ('                refuse_if(lsn + relative // 2 >= 1 << 63, 20)\n'
         '                refuse_if(ident not in table, 18)\n',
         '                refuse_if(ident not in table, 18)\n'
         '                refuse_if(lsn + relative // 2 >= 1 << 63, 20)\n'),
    ],
    'sum-over-2^63': [
        ('                refuse_if(lsn + relative // 2 >= 1 << 63, 20)\n',
         '                refuse_if(lsn + relative // 2 > 1 << 63, 20)\n'),
    ],
    'positions-before-room': [
        ('        self.check_room(files)  # D15: 4 before 5\n'
         '        self.check_next(files, self.next)\n',
         '        self.check_next(files, self.next)\n'
         '        self.check_room(files)\n'),
    ],
    'pruned-after-refusal': [
        ('                moved += self.rewrite(generation, planned.mark, planned.count)\n'
         '            except Refused as refusal:\n'
         '                raise Refused(refusal.number, generation, moved)\n',
         '                moved += self.rewrite(generation, planned.mark, planned.count)\n'
         '            except Refused as refusal:\n'
         '                self.drop_dead()\n'
         '                raise Refused(refusal.number, generation, moved)\n'),
    ],
    'not-pruned': [
        ('        self.prune()\n'
         '        return moved',
         '        return moved'),
    ],
    'moved-lost': [
        ('                moved += self.rewrite(generation, planned.mark, planned.count)\n'
         '            except Refused as refusal:\n'
         '                raise Refused(refusal.number, generation, moved)\n',
         '                moved += self.rewrite(generation, planned.mark, planned.count)\n'
         '            except Refused as refusal:\n'
         '                raise Refused(refusal.number, generation, 0)\n'),
    ],
    'goes-on-after-a-refusal': [
        ('planned, moved = self.plan(), 0\n',
         'planned, moved, last = self.plan(), 0, None\n'),
        ('                moved += self.rewrite(generation, planned.mark, planned.count)\n'
         '            except Refused as refusal:\n'
         '                raise Refused(refusal.number, generation, moved)\n'
         '        self.prune()\n',
         '                group = self.group(generation, planned.mark, planned.count)\n'
         '                moved += self.rewrite(generation, planned.mark, planned.count)\n'
         '                last = None if group else last\n'
         '            except Refused as refusal:\n'
         '                last = Refused(refusal.number, generation, moved)\n'
         '        if last:\n'
         '            raise last\n'
         '        self.prune()\n'),
    ],
    'moved-counts-files': [
        ('return sum(map(len, files))',
         'return len(files)'),
    ],
    'moved-of-last-group': [
        ('moved += self.rewrite(generation, planned.mark, planned.count)',
         'moved = self.rewrite(generation, planned.mark, planned.count) or moved'),
    ],
    'moved-from-any-location': [
        ('            if table[ident] == raw_location(lsn + at, False):\n'
         '                kept',
         '            if True:\n'
         '                kept'),
    ],
    'current-location-masked': [
        ('raw_location(lsn + at, False)',
         'raw_location(masked(lsn) + at, False)'),
    ],
    'deletes-not-rewritten': [
        ('                    kept[ident] = None\n',
         '                    pass\n'),
    ],
    'delete-at-relative-location': [
        ('if table[ident] == relative + 2 * lsn:',
         'if table[ident] == relative:'),
    ],
    'unmapped-object-skipped': [
        ('            refuse_if(ident not in table, 18)\n'
         '            refuse_if(at + HEADER + length > trailer_offset, 16)\n',
         '            refuse_if(at + HEADER + length > trailer_offset, 16)\n'),
        ('            if table[ident] == raw_location',
         '            if table.get(ident) == raw_location'),
    ],
    'unmapped-delete-skipped': [
        ('                refuse_if(lsn + relative // 2 >= 1 << 63, 20)\n'
         '                refuse_if(ident not in table, 18)\n'
         '                if table[ident] ==',
         '                refuse_if(lsn + relative // 2 >= 1 << 63, 20)\n'
         '                if table.get(ident) =='),
    ],
    'object-checksum-not-asked': [
        ('            refuse_if(object_sum(ident, body) != le(data, at, 4), 10)\n',
         ''),
    ],
    'delete-sum-masked': [
        ('                refuse_if(lsn + relative // 2 >= 1 << 63, 20)\n',
         '                refuse_if(masked(lsn) + relative // 2 >= 1 << 63, 20)\n'),
    ],
    'generation-given-with-1': [
        ('        planned, moved = self.plan(), 0\n',
         '        try:\n'
         '            planned, moved = self.plan(), 0\n'
         '        except Refused:\n'
         '            raise Refused(1, 1, 0)\n'),
    ],
    'maintain-1-not-asked': [
        ('        self.check_state()\n'
         '        mark, count, made',
         '        mark, count, made'),
        ('        self.check_state()\n'
         '        refuse_if(generation not',
         '        refuse_if(generation not'),
        ('            except Refused as refusal:\n'
         '                raise Refused(refusal.number, generation, moved)\n'
         '        self.prune()\n',
         '            except Refused as refusal:\n'
         '                raise Refused(refusal.number, generation, moved)\n'
         '        self.drop_dead()\n'),
    ],
    'cut-at-target': [
        ('if sizes.get(n, 0) > self.given.target:',
         'if sizes.get(n, 0) >= self.given.target:'),
    ],
    'not-restarted': [
        ('                sizes[n] = 0\n',
         '                pass\n'),
    ],
    'cut-after-joining': [
        ('            if sizes.get(n, 0) > self.given.target:\n'
         '                fragments.append(shards.pop(n))\n'
         '                sizes[n] = 0\n'
         '            shards.setdefault(n, []).append((ident, body))\n'
         '            sizes[n] = sizes.get(n, 0) + (0 if body is None else HEADER + len(body))\n',
         '            shards.setdefault(n, []).append((ident, body))\n'
         '            sizes[n] = sizes.get(n, 0) + (0 if body is None else HEADER + len(body))\n'
         '            if sizes.get(n, 0) > self.given.target:\n'
         '                fragments.append(shards.pop(n))\n'
         '                sizes[n] = 0\n'),
    ],
    'fragments-first': [
        ('return [shards[n] for n in sorted(shards)] + fragments',
         'return fragments + [shards[n] for n in sorted(shards)]'),
    ],
    'rewritten-with-bit': [
        ('self.install(entries, generation, 0)',
         'self.install(entries, generation, BATCH_BIT)'),
    ],
    'rewritten-in-generation-0': [
        ('self.install(entries, generation, 0)',
         'self.install(entries, 0, 0)'),
    ],
    'one-shard': [
        ('            n = shard(body)\n',
         '            n = 0\n'),
    ],
    'fifteen-before-14': [
        ('        refuse_if(any(a[1] >= b[0] for a, b in zip(ranges, ranges[1:])), 14)\n'
         '        refuse_if(any(self.not_rising(entries) for _, entries in found.values()), 15)\n',
         '        refuse_if(any(self.not_rising(entries) for _, entries in found.values()), 15)\n'
         '        refuse_if(any(a[1] >= b[0] for a, b in zip(ranges, ranges[1:])), 14)\n'),
    ],
    'equal-positions-rise': [
        ('relative // 2 <= last[ident]:',
         'relative // 2 < last[ident]:'),
    ],
    'maximum-of-sums': [
        ('max(masked(n[0]) for n in heads) + max(n[2] for n in heads) + 1 if heads else 1',
         'max(masked(n[0]) + n[2] for n in heads) + 1 if heads else 1'),
    ],
    'next-by-raw-lsn': [
        ('max(masked(n[0]) for n in heads) + max(n[2] for n in heads) + 1 if heads else 1',
         'max(n[0] for n in heads) + max(n[2] for n in heads) + 1 if heads else 1'),
    ],
    'given-up-next-0': [
        ('[EMPTY] * MAX_RECORDS, 0, 1\n',
         '[EMPTY] * MAX_RECORDS, 0, 0\n'),
    ],
    'given-up-table-kept': [
        ('        self.set_table({})\n'
         '        records',
         '        records'),
    ],
    'given-up-claims-kept': [
        ('        self.records, self.claims, self.next = [EMPTY] * MAX_RECORDS, 0, 1\n',
         '        claims = self.claims\n'
         '        self.records, self.next = [EMPTY] * MAX_RECORDS, 1\n'),
        ('        self.records, self.next = records, next_position\n',
         '        self.records, self.next, self.claims = records, next_position, 0\n'),
    ],
    'raw-location-decides': [
        ('here = (masked(numbers[0]) + relative // 2, relative',
         'here = (numbers[0] + relative // 2, relative'),
    ],
    'range-end-not-counted': [
        ('any(a[1] >= b[0] for a, b',
         'any(a[1] > b[0] for a, b'),
    ],
    'ranges-by-file-size': [
        ('ranges = sorted((masked(n[0]), masked(n[0]) + n[1]) for n, _ in found.values())',
         'ranges = sorted((masked(n[0]), masked(n[0]) + n[2]) for n, _ in found.values())'),
    ],
    'ranges-raw': [
        ('ranges = sorted((masked(n[0]), masked(n[0]) + n[1]) for n, _ in found.values())',
         'ranges = sorted((n[0], n[0] + n[1]) for n, _ in found.values())'),
    ],
    'least-position-decides': [
        ('best[ident] = max(best.get(ident, here), here)',
         'best[ident] = min(best.get(ident, here), here)'),
    ],
    'last-slot-decides': [
        ('best[ident] = max(best.get(ident, here), here)',
         'best[ident] = here'),
    ],
    'reopened-live-without-deletes': [
        ('Counter(b[2] for b in best.values())',
         'Counter(b[2] for b in best.values() if b[1] % 2 == 0)'),
    ],
    'reopened-live-as-present': [
        ('records[slot] = numbers + (live[slot], 1)',
         'records[slot] = numbers + (numbers[3], 1)'),
    ],
    'delete-at-T-not-live': [
        ('Counter(b[2] for b in best.values())',
         'Counter(b[2] for b in best.values() if b[0] < masked(found[b[2]][0][0]) + found[b[2]][0][1])'),
    ],
    'reopened-next-without-1': [
        ('max(masked(n[0]) for n in heads) + max(n[2] for n in heads) + 1 if heads else 1',
         'max(masked(n[0]) for n in heads) + max(n[2] for n in heads) if heads else 0'),
    ],
    'reopened-next-by-T': [
        ('max(masked(n[0]) for n in heads) + max(n[2] for n in heads) + 1 if heads else 1',
         'max(masked(n[0]) for n in heads) + max(n[1] for n in heads) + 1 if heads else 1'),
    ],
    'one-gives-up-too': [
        ('        refuse_if(not self.lengths_in_range(), 1)\n'
         '        self.settings, self.heap_len',
         '        bad = not self.lengths_in_range()\n'
         '        if bad:\n'
         '            self.settings, self.heap_len, self.table_len = self.given, len(self.heap), self.entries()\n'
         '            self.records, self.claims, self.next = [EMPTY] * MAX_RECORDS, 0, 1\n'
         '            self.set_table({})\n'
         '        refuse_if(bad, 1)\n'
         '        self.settings, self.heap_len'),
    ],
    'reopening-asks-the-state': [
        ('        refuse_if(not self.lengths_in_range(), 1)\n'
         '        self.settings, self.heap_len',
         '        self.check_state()\n'
         '        self.settings, self.heap_len'),
    ],
    'opened-claims-kept': [
        ('        self.records, self.claims, self.next = [EMPTY] * MAX_RECORDS, 0, 1\n',
         '        claims = self.claims\n'
         '        self.records, self.claims, self.next = [EMPTY] * MAX_RECORDS, 0, 1\n'),
        ('        self.records, self.next = records, next_position\n',
         '        self.records, self.next, self.claims = records, next_position, claims\n'),
    ],
    'given-up-files-kept': [
        ('        self.records, self.claims, self.next = [EMPTY] * MAX_RECORDS, 0, 1\n',
         '        self.claims, self.next = 0, 1\n'),
    ],
    'damaged-slot-skipped': [
        ('                found[slot] = self.labelled(slot, label_numbers(bytes(self.heap[at:at + LABEL])))\n',
         '                try:\n'
         '                    found[slot] = self.labelled(slot, label_numbers(bytes(self.heap[at:at + LABEL])))\n'
         '                except Refused:\n'
         '                    pass\n'),
    ],
    'rising-by-raw-location': [
        ('if ident in last and relative // 2 <= last[ident]:',
         'if ident in last and relative <= last[ident]:'),
        ('last[ident] = relative // 2',
         'last[ident] = relative'),
    ],
    'repeated-id-refused': [
        ('if ident in last and relative // 2 <= last[ident]:',
         'if ident in last:'),
    ],
    'rising-over-all-files': [
        ('        refuse_if(any(self.not_rising(entries) for _, entries in found.values()), 15)\n',
         '        refuse_if(self.not_rising([e for _, entries in found.values() for e in entries]), 15)\n'),
    ],
    'entries-counted-not-ids': [
        ('refuse_if(len(best) > self.entries(), 6)',
         'refuse_if(sum(len(e) for _, e in found.values()) > self.entries(), 6)'),
    ],
    'reopened-table-one-left': [
        ('refuse_if(len(best) > self.entries(), 6)',
         'refuse_if(len(best) >= self.entries(), 6)'),
    ],
    'reopened-relative-locations': [
        ('relative + 2 * numbers[0], slot)',
         'relative, slot)'),
    ],
    'reopened-locations-masked': [
        ('relative + 2 * numbers[0], slot)',
         'relative + 2 * masked(numbers[0]), slot)'),
    ],
    'trailer-of-12-taken': [
        ('refuse_if(len(trailer) < 20, 9)',
         'refuse_if(len(trailer) < 12, 9)'),
    ],
    'eleven-before-ten': [
        ('    refuse_if(zlib.crc32(trailer[4:]) != le(trailer, 0, 4), 10)\n'
         '    count = le(trailer, 4)\n'
         '    refuse_if(12 + 16 * count > len(trailer), 11)\n',
         '    count = le(trailer, 4)\n'
         '    refuse_if(12 + 16 * count > len(trailer), 11)\n'
         '    refuse_if(zlib.crc32(trailer[4:]) != le(trailer, 0, 4), 10)\n'),
    ],
    'delete-needs-20-too': [
        ('return relative // 2 + (0 if relative % 2 == 1 else HEADER) > trailer_offset',
         'return relative // 2 + HEADER > trailer_offset'),
    ],
    'thirteen-before-twelve': [
        ('        refuse_if(any(misplaced(trailer_offset, relative) for _, relative in entries), 12)\n'
         '        refuse_if(present != len(entries), 13)\n',
         '        refuse_if(present != len(entries), 13)\n'
         '        refuse_if(any(misplaced(trailer_offset, relative) for _, relative in entries), 12)\n'),
    ],
    'label-not-filled': [
        ('if numbers[4] > 255 or any(label[at:]):',
         'if numbers[4] > 255:'),
    ],
    'masked-lsn-0-taken': [
        ('generation > 255 or file_size > slot_bytes - LABEL or trailer_offset > file_size or masked(lsn) == 0',
         'generation > 255 or file_size > slot_bytes - LABEL or trailer_offset > file_size'),
    ],
    'eight-after-eleven': [
        ('        refuse_if(outside_bounds(self.given.slot_bytes, lsn, trailer_offset, file_size, generation), 8)\n'
         '        entries = trailer_entries(self.file_part(slot, trailer_offset, file_size))\n',
         '        entries = trailer_entries(self.file_part(slot, trailer_offset, file_size))\n'
         '        refuse_if(outside_bounds(self.given.slot_bytes, lsn, trailer_offset, file_size, generation), 8)\n'),
        ('if numbers[4] > 255 or any(label[at:]):',
         'if any(label[at:]):'),
    ],
    'wrong-label-empty': [
        ('            if self.heap[at] != 0:\n'
         '                found',
         '            if self.heap[at] != 0 and label_numbers(bytes(self.heap[at:at + LABEL])) is not None:\n'
         '                found'),
    ],
    'objects-to-file-end': [
        ('        kept, at = {}, 0\n'
         '        while at < trailer_offset:',
         '        kept, at = {}, 0\n'
         '        trailer_offset = len(data)\n'
         '        while at < trailer_offset:'),
    ],
    'generation-256-taken': [
        ('generation > 255 or file_size > slot_bytes - LABEL or trailer_offset > file_size or masked(lsn) == 0',
         'file_size > slot_bytes - LABEL or trailer_offset > file_size or masked(lsn) == 0'),
        ('if numbers[4] > 255 or any',
         'if any'),
    ],
    'generation-255-refused': [
        ('generation > 255 or file_size > slot_bytes - LABEL or trailer_offset > file_size or masked(lsn) == 0',
         'generation >= 255 or file_size > slot_bytes - LABEL or trailer_offset > file_size or masked(lsn) == 0'),
    ],
    'file-size-up-to-S': [
        ('generation > 255 or file_size > slot_bytes - LABEL or trailer_offset > file_size or masked(lsn) == 0',
         'generation > 255 or file_size > slot_bytes or trailer_offset > file_size or masked(lsn) == 0'),
    ],
    'full-slot-refused': [
        ('generation > 255 or file_size > slot_bytes - LABEL or trailer_offset > file_size or masked(lsn) == 0',
         'generation > 255 or file_size >= slot_bytes - LABEL or trailer_offset > file_size or masked(lsn) == 0'),
    ],
    'T-of-file-size-refused': [
        ('generation > 255 or file_size > slot_bytes - LABEL or trailer_offset > file_size or masked(lsn) == 0',
         'generation > 255 or file_size > slot_bytes - LABEL or trailer_offset >= file_size or masked(lsn) == 0'),
    ],
    'range-to-2^62-taken': [
        ('masked(lsn) + trailer_offset >= BATCH_BIT)',
         'masked(lsn) + trailer_offset > BATCH_BIT)'),
    ],
    'range-of-file-size': [
        ('masked(lsn) + trailer_offset >= BATCH_BIT)',
         'masked(lsn) + file_size >= BATCH_BIT)'),
    ],
    'raw-lsn-plus-T': [
        ('masked(lsn) + trailer_offset >= BATCH_BIT)',
         'lsn + trailer_offset >= BATCH_BIT)'),
    ],
    'raw-lsn-0-refused': [
        ('generation > 255 or file_size > slot_bytes - LABEL or trailer_offset > file_size or masked(lsn) == 0',
         'generation > 255 or file_size > slot_bytes - LABEL or trailer_offset > file_size or lsn == 0'),
    ],
    'empty-by-all-zeros': [
        ('            if self.heap[at] != 0:\n'
         '                found',
         '            if any(self.heap[at:at + LABEL]):\n'
         '                found'),
    ],
    'label-of-63': [
        ("ljust(LABEL, b'\\0')",
         "ljust(LABEL - 1, b'\\0')"),
        ('self.heap[at:at + LABEL + len(data)] = label_bytes(numbers) + data',
         'self.heap[at:at + 63] = label_bytes(numbers)\n'
         '        self.heap[at + 64:at + LABEL + len(data)] = data'),
    ],
    'trailer-of-20-refused': [
        ('len(trailer) < 20, 9)',
         'len(trailer) < 21, 9)'),
    ],
    'ten-before-nine': [
        ('    refuse_if(len(trailer) < 20, 9)\n'
         '    refuse_if(zlib.crc32(trailer[4:]) != le(trailer, 0, 4), 10)\n',
         '    refuse_if(zlib.crc32(trailer[4:]) != le(trailer, 0, 4), 10)\n'
         '    refuse_if(len(trailer) < 20, 9)\n'),
    ],
    'checksum-read-without-count': [
        ('zlib.crc32(trailer[4:]) != le',
         'zlib.crc32(trailer[12:]) != le'),
    ],
    'later-bytes-not-checksummed': [
        ('zlib.crc32(trailer[4:]) != le',
         'zlib.crc32(trailer[4:12 + 16 * le(trailer, 4)]) != le'),
    ],
    'later-bytes-refused': [
        ('refuse_if(12 + 16 * count > len(trailer), 11)',
         'refuse_if(12 + 16 * count != len(trailer), 11)'),
    ],
    'count-of-entries-alone': [
        ('    refuse_if(12 + 16 * count > len(trailer), 11)\n'
         "    return list(struct.iter_unpack('<QQ', trailer[12:12 + 16 * count]))",
         '    refuse_if(16 * count > len(trailer), 11)\n'
         '    t = trailer[12:12 + 16 * count]\n'
         '    return [(le(t, k), le(t, k + 8)) for k in range(0, len(t), 16)]'),
    ],
    'entries-to-the-end': [
        ("    return list(struct.iter_unpack('<QQ', trailer[12:12 + 16 * count]))",
         '    t = trailer[12:]\n'
         '    return [(le(t, k), le(t, k + 8)) for k in range(0, len(t), 16)]'),
    ],
    'object-may-start-at-T': [
        ('return relative // 2 + (0 if relative % 2 == 1 else HEADER) > trailer_offset',
         'return relative // 2 > trailer_offset'),
    ],
    'delete-at-T-refused': [
        ('return relative // 2 + (0 if relative % 2 == 1 else HEADER) > trailer_offset',
         'return relative // 2 + (1 if relative % 2 == 1 else HEADER) > trailer_offset'),
    ],
    'raw-over-T-refused': [
        ('return relative // 2 + (0 if relative % 2 == 1 else HEADER) > trailer_offset',
         'return (relative if relative % 2 == 1 else relative // 2 + HEADER) > trailer_offset'),
    ],
    'empty-records-counted': [
        ('return len(files), sum(r[2]',
         'return 256, sum(r[2]'),
    ],
    'own-location-below': [
        ('if 2 * r[0] <= raw]',
         'if 2 * r[0] < raw]'),
    ],
    'highest-slot-of-equals': [
        ('below = [(2 * r[0], -k) for k, r in self.files() if 2 * r[0] <= raw]\n'
         '        return -max(below)[1] if below else None',
         'below = [(2 * r[0], k) for k, r in self.files() if 2 * r[0] <= raw]\n'
         '        return max(below)[1] if below else None'),
    ],
    'masked-lookup': [
        ('if 2 * r[0] <= raw]',
         'if 2 * masked(r[0]) <= raw]'),
    ],
    'first-file-below': [
        ('        return -max(below)[1] if below else None',
         '        return -below[0][1] if below else None'),
    ],
    'own-location-not-doubled': [
        ('if 2 * r[0] <= raw]',
         'if r[0] <= raw]'),
    ],
    'highest-empty-slot': [
        ('self.empty_slots()[0], self.next',
         'self.empty_slots()[-1], self.next'),
    ],
    'slots-above-N-empty': [
        ('len(self.empty_slots()) - taken < len(files), 5)',
         'sum(r == EMPTY for r in self.records) - taken < len(files), 5)'),
    ],
    'empty-by-lsn': [
        ('if r is not EMPTY and r != EMPTY]',
         'if r[0] != 0]'),
    ],
    'empty-whatever-live': [
        ('if r is not EMPTY and r != EMPTY]',
         'if any(r[:5]) or r[6]]'),
    ],
    'dead-files-not-counted': [
        ('return len(files), sum(r[2]',
         'return sum(r[5] > 0 for r in files), sum(r[2]'),
        ('mark, count, made = self.next, len(self.files()), []',
         'mark, count, made = self.next, sum(r[5] > 0 for _, r in self.files()), []'),
    ],
    'equal-not-refused': [
        ('        refuse_if(current == raw, 19)\n',
         ''),
    ],
    'six-before-twenty': [
        ('        self.check_table()\n'
         '        refuse_if(raw == 0, 20)\n'
         '        self.put(ident, raw)\n',
         '        self.check_table()\n'
         '        refuse_if(ident not in self.table() and len(self.table()) == self.entries(), 6)\n'
         '        refuse_if(raw == 0, 20)\n'
         '        self.put(ident, raw)\n'),
    ],
    'compare-18-before-20': [
        ('        refuse_if(old == 0 or new == 0, 20)  # D13\n'
         '        current = self.table().get(ident)\n'
         '        refuse_if(current is None, 18)\n',
         '        current = self.table().get(ident)\n'
         '        refuse_if(current is None, 18)\n'
         '        refuse_if(old == 0 or new == 0, 20)  # D13\n'),
    ],
    'compare-old-0-taken': [
        ('refuse_if(old == 0 or new == 0, 20)',
         'refuse_if(new == 0, 20)'),
    ],
    'compare-of-unmapped-done': [
        ('        refuse_if(current is None, 18)\n',
         '        if current is None:\n'
         '            return None\n'),
    ],
    'lower-stored': [
        ('if current is None or current < raw:',
         'if True:'),
    ],
    'lower-stored-greater-not': [
        ('if current is None or current < raw:',
         'if current is None or current > raw:'),
    ],
    'differing-stored': [
        ('            return current\n'
         '        self.put(ident, new)',
         '            pass\n'
         '        self.put(ident, new)'),
    ],
    'store-of-0-taken': [
        ('        refuse_if(raw == 0, 20)\n'
         '        self.put(ident, raw)\n',
         '        self.put(ident, raw)\n'),
    ],
    'greater-of-0-taken': [
        ('        refuse_if(raw == 0, 20)\n'
         '        current',
         '        current'),
    ],
    'greater-gives-new': [
        ('            self.put(ident, raw)\n'
         '        return current',
         '            self.put(ident, raw)\n'
         '        return raw'),
    ],
    'lower-is-19': [
        ('refuse_if(current == raw, 19)',
         'refuse_if(current is not None and current >= raw, 19)'),
    ],
    'differing-gives-nothing': [
        ('            return current\n'
         '        self.put(ident, new)',
         '            return None\n'
         '        self.put(ident, new)'),
    ],
    'compare-gives-old': [
        ('        self.put(ident, new)\n'
         '        return None',
         '        self.put(ident, new)\n'
         '        return old'),
    ],
    'load-of-unmapped-18': [
        ('        self.check_table()\n'
         '        return self.told(ident)',
         '        self.check_table()\n'
         '        refuse_if(ident not in self.table(), 18)\n'
         '        return self.told(ident)'),
    ],
    'table-lengths-not-asked': [
        ('refuse_if(not self.table_lengths() or not self.table_in_form(), 1)',
         'refuse_if(not self.table_in_form(), 1)'),
    ],
    'table-form-not-asked': [
        ('refuse_if(not self.table_lengths() or not self.table_in_form(), 1)',
         'refuse_if(not self.table_lengths(), 1)'),
    ],
    'first-store-stays': [
        ('self.set_table({**table, ident: raw})',
         'self.set_table({ident: raw, **table})'),
        ('self.set_table({**table, **{i: r + 2 * lsn for i, r in places}})',
         'self.set_table({**{i: r + 2 * lsn for i, r in places}, **table})'),
    ],
    'full-of-mapped-ids': [
        ('refuse_if(ident not in table and len(table)',
         'refuse_if(len(table)'),
    ],
    'full-with-one-left': [
        ('ident not in table and len(table) == self.entries(), 6)',
         'ident not in table and len(table) + 1 >= self.entries(), 6)'),
    ],
    'full-one-over': [
        ('ident not in table and len(table) == self.entries(), 6)',
         'ident not in table and len(table) > self.entries(), 6)'),
    ],
    'ids-rise-not-strictly': [
        ('all(map(lt, ids[:used - 1], ids[1:used]))',
         'all(a <= b for a, b in zip(ids[:used - 1], ids[1:used]))'),
    ],
    'unused-ids-any': [
        ('return rising and not any(ids[used:]) and not any(locations[used:])',
         'return rising and not any(locations[used:])'),
    ],
    'used-behind-unused': [
        ('        used = locations.index(0) if 0 in locations else len(locations)\n'
         '        rising = all(map(lt, ids[:used - 1], ids[1:used]))\n'
         '        return rising and not any(ids[used:]) and not any(locations[used:])',
         '        used = [i for i, l in zip(ids, locations) if l]\n'
         '        return all(map(lt, used, used[1:])) and not any(i for i, l in zip(ids, locations) if not l)'),
    ],
    'table-of-no-entries': [
        ('1 <= self.entries() <= 65536',
         '0 <= self.entries() <= 65536'),
    ],
    'table-of-65535': [
        ('1 <= self.entries() <= 65536',
         '1 <= self.entries() <= 65535'),
    ],
    'odd-length-taken': [
        ('len(self.words) % 2 == 0 and 1',
         '1'),
    ],
    'id-0-refused': [
        ('return rising and not any(ids[used:]) and not any(locations[used:])',
         'return rising and not any(ids[used:]) and not any(locations[used:]) and not (used and ids[0] == 0)'),
    ],
    'settings-not-compared': [
        ('self.given != self.settings or len(self.heap) != self.heap_len or self.entries() != self.table_len, 1)',
         'len(self.heap) != self.heap_len or self.entries() != self.table_len, 1)'),
    ],
    'heap-length-not-compared': [
        ('self.given != self.settings or len(self.heap) != self.heap_len or self.entries() != self.table_len, 1)',
         'self.given != self.settings or self.entries() != self.table_len, 1)'),
    ],
    'table-length-not-compared': [
        ('self.given != self.settings or len(self.heap) != self.heap_len or self.entries() != self.table_len, 1)',
         'self.given != self.settings or len(self.heap) != self.heap_len, 1)'),
    ],
    'form-not-asked': [
        ('refuse_if(not self.table_in_form() or self.next == 0, 1)',
         'refuse_if(self.next == 0, 1)'),
    ],
    'next-0-taken': [
        ('refuse_if(not self.table_in_form() or self.next == 0, 1)',
         'refuse_if(not self.table_in_form(), 1)'),
    ],
    'record-above-N-taken': [
        ('slot >= self.slots() or outside_bounds(self.given.slot_bytes, lsn, trailer_offset, file_size, generation)\n'
         '                or present > file_size or live > self.entries()',
         'outside_bounds(self.given.slot_bytes, lsn, trailer_offset, file_size, generation)\n'
         '                or present > file_size or live > self.entries()'),
    ],
    'record-at-N-taken': [
        ('slot >= self.slots() or outside_bounds(self.given.slot_bytes, lsn, trailer_offset, file_size, generation)\n'
         '                or present > file_size or live > self.entries()',
         'slot > self.slots() or outside_bounds(self.given.slot_bytes, lsn, trailer_offset, file_size, generation)\n'
         '                or present > file_size or live > self.entries()'),
    ],
    'record-bounds-not-asked': [
        ('slot >= self.slots() or outside_bounds(self.given.slot_bytes, lsn, trailer_offset, file_size, generation)\n'
         '                or present > file_size or live > self.entries()',
         'slot >= self.slots() or present > file_size or live > self.entries()'),
    ],
    'present-not-asked': [
        ('slot >= self.slots() or outside_bounds(self.given.slot_bytes, lsn, trailer_offset, file_size, generation)\n'
         '                or present > file_size or live > self.entries()',
         'slot >= self.slots() or outside_bounds(self.given.slot_bytes, lsn, trailer_offset, file_size, generation)\n'
         '                or live > self.entries()'),
    ],
    'present-of-file-size-refused': [
        ('slot >= self.slots() or outside_bounds(self.given.slot_bytes, lsn, trailer_offset, file_size, generation)\n'
         '                or present > file_size or live > self.entries()',
         'slot >= self.slots() or outside_bounds(self.given.slot_bytes, lsn, trailer_offset, file_size, generation)\n'
         '                or present >= file_size or live > self.entries()'),
    ],
    'live-of-table-refused': [
        ('slot >= self.slots() or outside_bounds(self.given.slot_bytes, lsn, trailer_offset, file_size, generation)\n'
         '                or present > file_size or live > self.entries()',
         'slot >= self.slots() or outside_bounds(self.given.slot_bytes, lsn, trailer_offset, file_size, generation)\n'
         '                or present > file_size or live >= self.entries()'),
    ],
    'live-over-present-refused': [
        ('slot >= self.slots() or outside_bounds(self.given.slot_bytes, lsn, trailer_offset, file_size, generation)\n'
         '                or present > file_size or live > self.entries()',
         'slot >= self.slots() or outside_bounds(self.given.slot_bytes, lsn, trailer_offset, file_size, generation)\n'
         '                or present > file_size or live > present'),
    ],
    'heap-not-asked': [
        ('s.in_range() and len(self.heap) % s.slot_bytes == 0 and 1 <= len(self.heap) // s.slot_bytes <= 256\n'
         '                and self',
         's.in_range() and self'),
    ],
    'slot-of-128-refused': [
        ('128 <= self.slot',
         '129 <= self.slot'),
    ],
    'slot-of-1048576-refused': [
        ('self.slot_bytes <= 1048576',
         'self.slot_bytes <= 1048575'),
    ],
    'percent-of-0-refused': [
        ('0 <= self.percent',
         '1 <= self.percent'),
    ],
    'percent-of-101-taken': [
        ('self.percent <= 100',
         'self.percent <= 101'),
    ],
    'min-files-of-0-taken': [
        ('1 <= self.min',
         '0 <= self.min'),
    ],
    'target-of-0-taken': [
        ('1 <= self.target',
         '0 <= self.target'),
    ],
    'threshold-of-0-refused': [
        ('0 <= self.threshold',
         '1 <= self.threshold'),
    ],
    'objects-of-0-taken': [
        ('1 <= self.max',
         '0 <= self.max'),
    ],
    'heap-not-exact': [
        ('len(self.heap) % s.slot_bytes == 0 and 1 <=',
         '1 <='),
    ],
    'heap-of-256-slots-refused': [
        ('len(self.heap) // s.slot_bytes <= 256',
         'len(self.heap) // s.slot_bytes <= 255'),
    ],
    'heap-of-no-slot-taken': [
        ('and 1 <= len(self.heap) //',
         'and 0 <= len(self.heap) //'),
    ],
    'threshold-not-compared': [
        ('self.given != self.settings or',
         'self.given[:4] + self.given[5:] != self.settings[:4] + self.settings[5:] or'),
    ],
    'default-limit-2048': [
        ('(4096, 50, 2, 2048, 64, 1024)',
         '(4096, 50, 2, 2048, 64, 2048)'),
    ],
    'live-as-present': [
        ('sum(r[3] for r in files), sum(r[5] for r in files)',
         'sum(r[3] for r in files), sum(r[3] for r in files)'),
    ],
    'bytes-as-T': [
        ('len(files), sum(r[2] for r in files)',
         'len(files), sum(r[1] for r in files)'),
    ],
    'present-as-live': [
        ('sum(r[3] for r in files), sum(r[5]',
         'sum(r[5] for r in files), sum(r[5]'),
    ],
    'counts-1-not-asked': [
        ('    def counts(self):\n'
         '        self.check_state()\n',
         '    def counts(self):\n'),
    ],
    'counts-in-other-order': [
        ('sum(r[3] for r in files), sum(r[5] for r in files)',
         'sum(r[5] for r in files), sum(r[3] for r in files)'),
    ],
    'live-listed-before-present': [
        ('{r[3]} {r[5]} {r[2]}',
         '{r[5]} {r[3]} {r[2]}'),
    ],
    'T-listed-as-size': [
        ('{r[3]} {r[5]} {r[2]}',
         '{r[3]} {r[5]} {r[1]}'),
    ],
    'masked-lsn-listed': [
        ('{k} {r[0]} {r[4]}',
         '{k} {masked(r[0])} {r[4]}'),
    ],
    'table-length-listed': [
        ('used = (self.store.locations() + [0]).index(0)',
         'used = self.store.entries()'),
    ],
    'moved-before-generation': [
        ('{r.generation} {r.moved}',
         '{r.moved} {r.generation}'),
    ],
    'objects-marked': [
        ('return 2 * position + (1 if delete else 0)',
         'return 2 * position + (0 if delete else 1)'),
    ],
    'mask-subtracts': [
        ('return position & ~BATCH_BIT',
         'return max(position - BATCH_BIT, 0)'),
    ],
    'mask-clears-all-above': [
        ('return position & ~BATCH_BIT',
         'return position % BATCH_BIT'),
    ],
    'shard-one-less': [
        ('else len(body).bit_length()',
         'else max(len(body) - 1, 0).bit_length() if len(body) > 1 else len(body)'),
    ],
    'big-endian': [
        ("int.from_bytes(data[at:at + width], 'little')",
         "int.from_bytes(data[at:at + width], 'big')"),
    ],
    'longer-form-taken': [
        ('shortest = k == 0 or byte != 0',
         'shortest = True'),
    ],
    'seventy-bits-taken': [
        ('shortest and n < U64',
         'shortest'),
    ],
    'sum-of-id-before-length': [
        ('def object_sum(ident, body):\n'
         "    return zlib.crc32(len(body).to_bytes(8, 'little') + ident.to_bytes(8, 'little') + body)",
         'def object_sum(ident, body):\n'
         "    return zlib.crc32(ident.to_bytes(8, 'little') + len(body).to_bytes(8, 'little') + body)"),
    ],
    'sum-of-body-alone': [
        ('def object_sum(ident, body):\n'
         "    return zlib.crc32(len(body).to_bytes(8, 'little') + ident.to_bytes(8, 'little') + body)",
         'def object_sum(ident, body):\n'
         '    return zlib.crc32(body)'),
    ],
}
