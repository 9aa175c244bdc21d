"""A small model of Mailbox/set and Email/set (RFC 8620, section 5.3; RFC 8621, sections 2.5 and 4.6), written from the
RFCs and docs/: plain dictionaries, every count recounted, nothing shared with the server. Other benchmarks and tests
compare the server's replies with it."""
import copy
import re

FORBIDDEN = set('(){]%*"\\')
ROLES = {'inbox', 'archive', 'drafts', 'sent', 'junk', 'trash', 'all', 'flagged', 'important'}
SETTABLE = ('isSubscribed', 'name', 'parentId', 'role', 'sortOrder')
RIGHTS = {'mayAddItems': True, 'mayCreateChild': True, 'mayDelete': True, 'mayReadItems': True, 'mayRemoveItems': True,
          'mayRename': True, 'maySetKeywords': True, 'maySetSeen': True, 'maySubmit': False}
COUNTS = ('totalEmails', 'totalThreads', 'unreadEmails', 'unreadThreads')


class BadPatch(Exception):
    pass


def key(text):
    return text.encode('utf-8')


def same(a, b):
    """JSON equality, in which true is not 1."""
    if type(a) is not type(b):
        return False
    if isinstance(a, dict):
        return a.keys() == b.keys() and all(same(a[k], b[k]) for k in a)
    if isinstance(a, list):
        return len(a) == len(b) and all(same(x, y) for x, y in zip(a, b))
    return a == b


def part_name(part):
    """The name that is escaped as a part of a path (RFC 6901); no other `~` may stand in it."""
    if re.search('~(?![01])', part):
        raise BadPatch
    return part.replace('~1', '/').replace('~0', '~')


def apply_patch(tree, patch):
    """The tree changed by pairs of parts and value (RFC 8620, section 5.3)."""
    paths = [tuple(parts) for parts, _ in patch]
    for i, p in enumerate(paths):
        for j, q in enumerate(paths):
            if i != j and q[:len(p)] == p:
                raise BadPatch
    places = []
    for parts, value in patch:
        at = tree
        names = [part_name(p) for p in parts]
        for name in names[:-1]:
            if not isinstance(at, dict) or name not in at:
                raise BadPatch
            at = at[name]
        if not isinstance(at, dict):
            raise BadPatch
        places.append((names, value))
    changed = copy.deepcopy(tree)
    for names, value in places:
        at = changed
        for name in names[:-1]:
            at = at[name]
        if value is None:
            at.pop(names[-1], None)
        else:
            at[names[-1]] = copy.deepcopy(value)
    return changed


def lower(text):
    return ''.join(chr(ord(c) + 32) if 'A' <= c <= 'Z' else c for c in text)


def is_keyword(text):
    return 1 <= len(text) <= 255 and all('!' <= c <= '~' and c not in FORBIDDEN for c in text)


def or_null(value):
    return value if value else None


class Account:
    def __init__(self):
        self.mailboxes, self.emails, self.threads = {}, {}, {}
        self.next = {'M': 1, 'E': 1, 'T': 1}
        self.position = 0
        self.state = {'M': 0, 'E': 0, 'T': 0}

    # ---- edits

    def edit(self, kind):
        self.position += 1
        self.state[kind] = self.position

    def counts(self, number):
        inside = [e for e in self.emails.values() if number in e['mailboxes']]
        threads = {e['thread'] for e in inside}
        unread = [e for e in self.emails.values() if not {'$seen', '$draft'} & e['keywords']]
        return {'totalEmails': len(inside), 'unreadEmails': sum(1 for e in unread if number in e['mailboxes']),
                'totalThreads': len(threads), 'unreadThreads': len(threads & {e['thread'] for e in unread})}

    def settle(self, before):
        """The edits that follow: threads whose list changed, then mailboxes whose counts did."""
        lists = {}
        for number, e in self.emails.items():
            lists.setdefault(e['thread'], []).append((e['received'], number))
        for thread in sorted(set(lists) | set(self.threads)):
            now = [n for _, n in sorted(lists.get(thread, []))]
            if now != self.threads.get(thread):
                self.edit('T')
                if now:
                    self.threads[thread] = now
                else:
                    del self.threads[thread]
        for number in sorted(self.mailboxes):
            if self.counts(number) != before.get(number, dict.fromkeys(COUNTS, 0)):
                self.edit('M')

    def all_counts(self):
        return {n: self.counts(n) for n in self.mailboxes}

    # ---- what is shown

    def mailbox_view(self, number):
        m = self.mailboxes[number]
        view = {'id': f'M{number}', 'isSubscribed': m['subscribed'], 'myRights': dict(RIGHTS), 'name': m['name'],
                'parentId': f"M{m['parent']}" if m['parent'] else None, 'role': m['role'], 'sortOrder': m['order']}
        view.update(self.counts(number))
        return view

    def named(self, text, kind, rows):
        found = re.fullmatch(kind + '([1-9][0-9]*)', text) if isinstance(text, str) else None
        number = int(found.group(1)) if found else 0
        return number if number in rows else None

    # ---- mailboxes

    def sent(self, props, made):
        """The five properties by themselves: values, and the names of the invalid ones."""
        values, bad = {}, set()
        name = props.get('name')
        if isinstance(name, str) and 1 <= len(key(name)) <= 255 and not re.search('[\x00-\x1f\x7f]', name):
            values['name'] = name
        else:
            bad.add('name')
        parent = props.get('parentId')
        if parent is None:
            values['parent'] = None
        else:
            meant = identify(parent, made) if isinstance(parent, str) else None
            number = self.named(meant, 'M', self.mailboxes)
            if number:
                values['parent'] = number
            else:
                bad.add('parentId')
        role = props.get('role')
        if role is None or (isinstance(role, str) and role in ROLES):
            values['role'] = role
        else:
            bad.add('role')
        order = props.get('sortOrder', 0)
        if type(order) is int and 0 <= order < 2 ** 31:
            values['order'] = order
        else:
            bad.add('sortOrder')
        subscribed = props.get('isSubscribed', True)
        if type(subscribed) is bool:
            values['subscribed'] = subscribed
        else:
            bad.add('isSubscribed')
        return values, bad

    def broken(self, mailboxes, number):
        """The names of the properties by which a mailbox breaks a rule among these."""
        m, bad = mailboxes[number], []
        others = [o for n, o in mailboxes.items() if n != number]
        if any(o['parent'] == m['parent'] and o['name'] == m['name'] for o in others):
            bad.append('name')
        at, steps = m['parent'], 0
        while at is not None and steps <= len(mailboxes):
            at, steps = mailboxes[at]['parent'], steps + 1
        if at is not None:
            bad.append('parentId')
        if m['role'] and any(o['role'] == m['role'] for o in others):
            bad.append('role')
        return bad

    def create_mailbox(self, props, made):
        values, bad = self.sent(props, made)
        if 'sortOrder' in props and props['sortOrder'] is None:
            bad.add('sortOrder')
        if 'isSubscribed' in props and props['isSubscribed'] is None:
            bad.add('isSubscribed')
        if 'name' not in bad and 'parentId' not in bad and any(
                o['parent'] == values['parent'] and o['name'] == values['name'] for o in self.mailboxes.values()):
            bad.add('name')
        if 'role' not in bad and values['role'] and any(o['role'] == values['role'] for o in self.mailboxes.values()):
            bad.add('role')
        given = {'id': f"M{self.next['M']}", 'myRights': RIGHTS, **dict.fromkeys(COUNTS, 0)}
        for name, value in props.items():
            if name not in SETTABLE and not (name in given and same(value, given[name])):
                bad.add(name)
        if bad:
            return None, sorted(bad, key=key)
        number = self.next['M']
        self.next['M'] += 1
        self.mailboxes[number] = values
        self.edit('M')
        return number, None

    def change_mailbox(self, number, patch, made):
        """The values that a patch gives by itself, or a SetError."""
        view = self.mailbox_view(number)
        if not isinstance(patch, dict):
            return None, {'type': 'invalidPatch'}
        try:
            after = apply_patch(view, [(p.split('/'), v) for p, v in patch.items()])
        except BadPatch:
            return None, {'type': 'invalidPatch'}
        values, bad = self.sent(after, made)
        for name in set(view) | set(after):
            if name not in SETTABLE and not (name in view and name in after and same(view[name], after[name])):
                bad.add(name)
        if bad:
            return None, {'properties': sorted(bad, key=key), 'type': 'invalidProperties'}
        return values, None

    def update_mailboxes(self, updates, destroys, made, together):
        """The reports of updates, and the numbers that were changed, in order; together: no rule is looked at."""
        done, refused, edits = {}, {}, []
        for sent, patch in sorted(updates.items(), key=lambda x: key(x[0])):
            told = reported(sent, made)
            number = self.named(identify(sent, made), 'M', self.mailboxes)
            if not number:
                refused[told] = {'type': 'notFound'}
                continue
            if told in destroys:
                refused[told] = {'type': 'willDestroy'}
                continue
            values, error = self.change_mailbox(number, patch, made)
            if not error and values != self.mailboxes[number]:
                mailboxes = {**self.mailboxes, number: values}
                bad = [] if together else self.broken(mailboxes, number)
                if bad:
                    error = {'properties': bad, 'type': 'invalidProperties'}
                else:
                    self.mailboxes = mailboxes
                    edits.append(number)
            if error:
                refused[told] = error
            else:
                done[told] = None
        return done, refused, edits

    def mailbox_set(self, args, made):
        """The arguments of the response; made is a list of pairs, which grows."""
        before, old, start = self.all_counts(), self.state['M'], dict(self.mailboxes)
        created, not_created = {}, {}
        waiting = sorted((args.get('create') or {}).items(), key=lambda x: key(x[0]))
        while waiting:
            ready = [i for i, (_, p) in enumerate(waiting) if stands(p.get('parentId'), made)]
            creation, props = waiting.pop(ready[0] if ready else 0)
            number, bad = self.create_mailbox(props, made)
            if bad:
                not_created[creation] = {'properties': bad, 'type': 'invalidProperties'}
                continue
            made.append((creation, f'M{number}'))
            view = {k: v for k, v in self.mailbox_view(number).items() if not (k in SETTABLE and k in props)}
            created[creation] = view
        ids = args.get('destroy') or []
        destroys = {reported(i, made) for i in ids}
        updates = args.get('update') or {}
        kept = dict(self.mailboxes)
        done, refused, edits = self.update_mailboxes(updates, destroys, made, True)
        if any(self.broken(self.mailboxes, n) for n in set(edits)):
            self.mailboxes = kept
            done, refused, edits = self.update_mailboxes(updates, destroys, made, False)
        for _ in edits:
            self.edit('M')
        destroyed, not_destroyed = [], {}
        for sent in ids:
            told = reported(sent, made)
            error = self.destroy_mailbox(self.named(identify(sent, made), 'M', self.mailboxes),
                                         args.get('onDestroyRemoveEmails', False))
            if error:
                not_destroyed[told] = {'type': error}
            else:
                destroyed.append(told)
        self.settle(before)
        return self.reply('M', old, created, not_created, done, refused, destroyed, not_destroyed)

    def destroy_mailbox(self, number, remove):
        if not number:
            return 'notFound'
        if any(m['parent'] == number for m in self.mailboxes.values()):
            return 'mailboxHasChild'
        inside = sorted(n for n, e in self.emails.items() if number in e['mailboxes'])
        if inside and not remove:
            return 'mailboxHasEmail'
        for n in inside:
            left = self.emails[n]['mailboxes'] - {number}
            if left:
                self.emails[n] = {**self.emails[n], 'mailboxes': left}
            else:
                del self.emails[n]
            self.edit('E')
        del self.mailboxes[number]
        self.edit('M')
        return None

    # ---- emails

    def change_email(self, number, patch, made):
        e = self.emails[number]
        if not isinstance(patch, dict):
            return None, {'type': 'invalidPatch'}
        tree = {'keywords': dict.fromkeys(e['keywords'], True), 'mailboxIds': {f'M{n}': True for n in e['mailboxes']}}
        pairs, other = [], set()
        try:
            for path, value in patch.items():
                parts = path.split('/')
                if len(parts) == 1 and part_name(parts[0]) not in tree:
                    other.add(part_name(parts[0]))
                    continue
                if parts[0] == 'keywords':
                    parts = ['keywords'] + [lower(p) for p in parts[1:]]
                if parts[0] == 'mailboxIds' and len(parts) == 2:
                    meant = reported(part_name(parts[1]), made)
                    parts = ['mailboxIds', meant.replace('~', '~0').replace('/', '~1')]
                pairs.append((parts, value))
            after = apply_patch(tree, pairs)
        except BadPatch:
            return None, {'type': 'invalidPatch'}
        bad = set(other)
        keywords = after.get('keywords', {})
        if not (isinstance(keywords, dict) and all(v is True and is_keyword(lower(k)) for k, v in keywords.items())):
            bad.add('keywords')
        ids = after.get('mailboxIds')
        numbers = [self.named(identify(i, made), 'M', self.mailboxes) for i in ids] if isinstance(ids, dict) else []
        if not (numbers and all(numbers) and all(v is True for v in ids.values())):
            bad.add('mailboxIds')
        if bad:
            return None, {'properties': sorted(bad, key=key), 'type': 'invalidProperties'}
        filing = {'keywords': {lower(k) for k in keywords}, 'mailboxes': set(numbers)}
        if len(filing['keywords']) > 128:
            return None, {'type': 'tooManyKeywords'}
        if len(filing['mailboxes']) > 64:
            return None, {'type': 'tooManyMailboxes'}
        return filing, None

    def email_set(self, args, made):
        before, old = self.all_counts(), self.state['E']
        not_created = {k: {'type': 'forbidden'} for k in args.get('create') or {}}
        ids = args.get('destroy') or []
        destroys = {reported(i, made) for i in ids}
        done, refused, destroyed, not_destroyed = {}, {}, [], {}
        for sent, patch in sorted((args.get('update') or {}).items(), key=lambda x: key(x[0])):
            told = reported(sent, made)
            number = self.named(identify(sent, made), 'E', self.emails)
            if not number:
                refused[told] = {'type': 'notFound'}
            elif told in destroys:
                refused[told] = {'type': 'willDestroy'}
            else:
                filing, error = self.change_email(number, patch, made)
                if error:
                    refused[told] = error
                    continue
                done[told] = None
                changed = {**self.emails[number], **filing}
                if changed != self.emails[number]:
                    self.emails[number] = changed
                    self.edit('E')
        for sent in ids:
            told = reported(sent, made)
            number = self.named(identify(sent, made), 'E', self.emails)
            if number:
                del self.emails[number]
                self.edit('E')
                destroyed.append(told)
            else:
                not_destroyed[told] = {'type': 'notFound'}
        self.settle(before)
        return self.reply('E', old, {}, not_created, done, refused, destroyed, not_destroyed)

    def reply(self, kind, old, created, not_created, done, refused, destroyed, not_destroyed):
        return {'accountId': 'A1', 'created': or_null(created), 'destroyed': or_null(destroyed),
                'newState': str(self.state[kind]), 'notCreated': or_null(not_created),
                'notDestroyed': or_null(not_destroyed), 'notUpdated': or_null(refused), 'oldState': str(old),
                'updated': or_null(done)}


def identify(sent, made):
    """The id that a string or its reference means; None where the reference stands for nothing."""
    if not sent.startswith('#'):
        return sent
    return next((i for k, i in reversed(made) if k == sent[1:]), None)


def reported(sent, made):
    meant = identify(sent, made)
    return sent if meant is None else meant


def stands(parent, made):
    return not (isinstance(parent, str) and parent.startswith('#')) or identify(parent, made) is not None
