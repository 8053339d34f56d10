# What the printers of the walks share: names with subscripts, nested tuples, and a context that is kept by name, so that places are computed.
# Nothing is run from this file; see explore.py, entries.py and outer.py beside it.
import os

SUB = str.maketrans('0123456789', '₀₁₂₃₄₅₆₇₈₉')
ROOT = os.path.dirname(os.path.dirname(os.path.dirname(os.path.abspath(__file__))))
WIDTH = 320


def sub(i):
    return str(i).translate(SUB)


def loc(i):
    return 'l' + sub(i)


def lst(xs):
    return ' ∷ '.join(list(xs) + ['[]'])


def nest(xs, last='tt'):
    t = last
    for x in reversed(xs):
        t = '(%s, %s)' % (x, t)
    return t


def nest_type(xs):
    t = 'Unit {0}'
    for x in reversed(xs):
        t = '%s × (%s)' % (x, t)
    return t


def sel(v, k):
    # the k-th part of a nested tuple
    return v + ' .1' * k + ' .0'


def the_row(kind, x, fact):
    # what a struct owns
    return 'owned ! %s.the-row (Is %s.the-row) (LL.makes %s.the-type %s′.the-plain 𝓤 H A) %s _ %s $' % (kind, kind, kind, kind, x, fact)


def the_word(x, fact):
    return 'owned ! usize (Is usize) (uint-makes 𝓤 H A W w64) %s _ (refl, %s) $' % (x, fact)


def typed(kind, x, fact):
    # its machine value has its type
    return '(LL.lawful %s.the-type %s′.the-laws 𝓤 H A W .typed %s _ %s .0)' % (kind, kind, x, fact)


class Text:
    def __init__(self):
        self.out = []

    def w(self, s=''):
        self.out.extend(s.split('\n'))

    def save(self, path):
        # short steps of a chain are joined to longer lines
        out = []
        for x in self.out:
            last = out[-1] if out else ''
            if last.endswith('$') and x.strip() and '--' not in last and not x.strip().startswith('--'):
                i0 = len(last) - len(last.lstrip())
                i1 = len(x) - len(x.lstrip())
                if i0 == i1 and len(last) + len(x.strip()) < WIDTH and ' = ' not in last[:60] and ' : ' not in last[:40]:
                    out[-1] = last + ' ' + x.strip()
                    continue
            out.append(x.rstrip())
        path = os.path.join(ROOT, path)
        os.makedirs(os.path.dirname(path), exist_ok=True)
        with open(path, 'w') as f:
            f.write('\n'.join(out).rstrip('\n') + '\n')


class Context:
    # the entries of a context, by name; `close` counts the brackets that are open
    def __init__(self, text, items, ind):
        self.t, self.c, self.ind, self.close = text, list(items), ind, 0

    def pr(self, s):
        self.t.out.append(self.ind + s)

    def at(self, n):
        return self.c.index(n)

    def L(self, i):
        return self.at('L%d' % i)

    def front(self, ns):
        idx = [self.at(n) for n in ns]
        if idx != list(range(len(ns))):
            self.pr('move ! (%s) $' % lst(str(k) for k in idx))
        self.c = list(ns) + [x for x in self.c if x not in ns]

    def put(self, n, *names):
        # the first n entries become these
        self.c = list(names) + self.c[n:]

    def drop(self, ns):
        for n in ns:
            self.front([n])
            self.pr('drop ! $')
            self.put(1)

    def opens(self, s, k=1):
        self.pr(s)
        self.close += k

    def forget(self, ks):
        self.pr(' $ '.join('forget ! %d refl' % self.L(i) for i in ks) + ' $')

    # ---- statements
    def address(self, src, dst):
        # dst = &*src.0
        self.pr('assigns ! (addr ! (from ! (fld ! refl (hop ! (look-in ! %d (sub ! 0 refl (whole !))) (stop !))))) (from ! (stop !)) (init ! %d refl (tt, tt)) $' % (self.L(src), self.L(dst)))

    def slice(self, p, src, dst, fits):
        # dst = (p, src.1)
        self.pr('assigns ! (agg ! (and-then ! (load ! (from ! (stop !)) (look ! %d refl)) (and-then ! (load ! (from ! (fld ! refl (stop !))) (look-in ! %d (sub ! 1 refl (whole !)))) (no-more !)))) (from ! (stop !)) (init ! %d refl (tt, (tt, (record { fits = %s }, tt)))) $' % (self.L(p), self.L(src), self.L(dst), fits))

    def part(self, src, k, at):
        # src.k, a field of the type and at the place `at`: antt is told both, since it would write out what it computes
        ty, d = at
        return '(load ! (from ! (fld ! {τ = %s} {d = %d} refl (stop !))) (look-in ! %d {τ = %s} (sub ! %d {τ = %s} {d = %d} refl (whole !))))' % (ty, d, self.L(src), ty, k, ty, d)

    def field(self, src, k, at, dst, typed, how='assigns', into='init'):
        # dst = src.k
        self.pr('%s ! (of-opd ! %s) (from ! (stop !)) (%s ! %d refl %s) $' % (how, self.part(src, k, at), into, self.L(dst), typed))

    def operands(self, ls):
        t = '(no-more !)'
        for i in reversed(ls):
            t = '(and-then ! (load ! (from ! (stop !)) (look ! %d refl)) %s)' % (self.L(i), t)
        return t

    def lands(self, kind, x, val, is_, dst, block):
        # the struct x, which a call returned as the machine value val, stands in its local
        self.front(['ro'])
        self.opens('peeks ! %s.the-row (Is %s.the-row) (shows 𝓤 H A %s.the-row) %s (%s ∷ []) (λ %s.' % (kind, kind, kind, x, val, is_))
        self.pr('land ! (from ! (stop !)) (init ! %d refl %s) $' % (self.L(dst), typed(kind, x, is_)))
        self.pr('rewrite ! %d (λ (z : Val). ‵ (fat fullShare %s′.mir %s 0 z)) (ap only (LL.tells %s.the-type %s′.the-laws %s _ %s)) refl $' % (self.L(dst), kind, block, kind, kind, x, is_))
        self.drop(['ro'])

    def joins(self, names, into, how):
        # the entries are joined to one, from the last on
        for n in reversed(names):
            self.front([n, into])
            self.pr('%s ! $' % how)
            self.put(2, into)

    def free_all(self, count):
        for i in range(count):
            self.front(['L%d' % i, 'D%d' % i])
            self.pr('free1 ! $')
            self.put(2)
        self.pr('free0 ! $')


def locals_names(count):
    r = []
    for i in reversed(range(count)):
        r += ['L%d' % i, 'D%d' % i]
    return r


def locals_items(count, types, content, filled):
    r = []
    for i in reversed(range(count)):
        r.append('‵ (fat fullShare %s %s 0 (%s))' % (types[i], loc(i), content[i]) if i in filled else '‵ (froom %s %s 0)' % (types[i], loc(i)))
        r.append('‵ (fdies %s %s)' % (types[i], loc(i)))
    return r
