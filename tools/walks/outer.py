#!/usr/bin/env python3
# Prints crates/zimbralosa/proofs/{from_hex_here,exports/zimbralosa_region}/Proof.antt, the walks of the functions above `from_hex`. Run: python3 tools/walks/outer.py
# When a parameter or a local is added, or a callee's contract changes, compare the numbers below with `rt mir zimbralosa` and print again.
from walk import Context, lst, locals_names, nest, nest_type, sel, sub, the_row, the_word
from entries import ALL, COUNTS, Entry, IMPORTS, LENT, N, R, ROW, S, TUPLE, callee, contract, itself

RECORDS = 256                   # of the roll that `from_hex_here` makes
ZERO = sub(0)
HEX = 'zimbralosa·from-hex'
STRUCTS = '''use Rattle·method.proofs.Record as T
use Rattle·attempts.proofs.Answer as N
use Rattle·attempts.proofs.Answer.Laws as N′'''


def imports(**given):
    words = dict(path='_≡_, refl', nat='', omega='', listn='', intn='', dec='', syntax='', array='', hasty='', logic='id⊢, via, fst∗, emp', fml='fat, flft', sem='', use='', lit='', rep='', tokens='', denote='', signed='', u8='u8, ', lend='', shr='ShrSlice, ',
        shrtells=', shr-slice-tells', needs='', dropped='stay-dropped, ', goesdropped='goes-dropped, ', shrof=', shrSliceOf')
    words.update(given)
    return (IMPORTS % words).rstrip('\n').replace('use Rattle·frames.specs.declared.Reading.{Reading}\n', '')


def begins(e, known):
    # the function is entered, and its parameters stand in their locals
    e.w('''
  walk : (𝓣 : Tables 𝓤 H) → FmC 𝓤 H (W .laws) (𝓣 .C) → %s → ent 𝓤 (onEntry 𝓤 H A f.signature %s %s a vals) (WpFn 𝓤 H (𝓣 .C) (𝓣 .Λ) code.function (%s) Post)
  walk 𝓣 fm %s =
      qed W (%s) ∵ enter ! (𝓣 .C) (𝓣 .Λ) code.function (%s) _ $''' % (' → '.join(e.triples), e.KS, e.QS, e.VALUES, known, lst(e.GIVEN), e.VALUES))
    cx = Context(e.text, locals_names(e.count) + ['toks', 'owns'], '      ')
    cx.opens('alloc-all ! code.Mir.locals (λ bs. params1 ! $')
    e.enters(cx)
    return cx


def tokens_of(cx, names):
    # the tokens that a callee gives back, each by itself
    for s in names:
        cx.front(['toks'])
        cx.pr('split ! $ move ! (1 ∷ []) $')
        cx.put(1, 'toks', 't' + s)


def gives_up(e, tokens, owned, last, first):
    # what a callee without a `requires` asks for: the tokens, and what its arguments own. `last` and `first`: the steps that make the argument behind the lent ones and the one before them, where there are such
    cx = Context(e.text, ['t' + s for s in tokens] + ['m' + s for s in owned], '      ')
    cx.pr('nothing ! $')
    cx.c = ['tr'] + cx.c
    cx.joins(['t' + s for s in tokens], 'tr', 'join')
    cx.pr('nothing ! $' + last)
    cx.c = ['o'] + cx.c
    cx.joins(['m' + s for s in owned], 'o', 'fjoin')
    if first:
        cx.pr(first)
    cx.front(['tr', 'o'])
    cx.pr('join ! $ frame ! $ done !')


WORD = ' ' + the_word('m', 'm-fits') + ' fjoin ! $'


def heard(cx, mod, κs, passed, ws, row, kind, x, v, toks, told, e):
    # what a callee promises, at its answer x
    cx.opens('use1 W (later (some (λ (%s : %s). ((%s) ⊛ ‵ (%s .own %s (%s ∷ []))) ⊛ raw (ensured 𝓤 H A %s.ended (%s.clauses 𝓤 H A at-mem run) %s %s tt %s)))) (id⊢ 𝓤 _) $ await ! tt $ pick ! (λ %s.' % (x, kind, toks, row, x, v, mod, mod, κs, passed, x, x))
    cx.opens('split ! $ move ! (1 ∷ []) $ use1 W (some (λ (%s : %s). ‵ (lasts %s.ended %s %s %s) ⊛ raw (fact 𝓤 (%s)))) (id⊢ 𝓤 _) $ pick ! (λ %s.' % (ws[0], nest_type(ws[1]), mod, κs, passed, ws[0], told, ws[0]))
    cx.opens('split ! $ move ! (1 ∷ []) $ heard ! (%s) (λ %s.' % (told, e))
    cx.put(1, 'las', 'res')


# ---- from_hex_here: a roll of its own is lent to `from_hex`
def here():
    roll = S + 3                                             # the locals: the array, the record that it repeats
    tmp = roll + 2                                           # two for each store
    ref = tmp + 2 * S                                        # two for the array
    e = Entry('from_hex_here', None, ref + 2, before=N)
    e.triples = ['Triple 𝓤 (𝓣 .C #%s) (Hex 𝓤 H A at-mem run)' % HEX]
    w = e.w
    w('''-- `zimbralosa::from_hex_here` meets its contract: a walk of its MIR. A roll of its own is lent as `&mut [Record]` to `from_hex`, to which the stores are given for good. All that the proof knows of `from_hex` is that it meets its contract.
-- Assumes nothing.''')
    w(imports(path='_≡_, refl, sym, ap, subst, _∙_', listn=', replicate, length-replicate', dec='use lib.Dec.{T as Holds, lit<}\n', array=', tyArray', hasty=', hasTy, WT', fml='fat, froom, flft, flent', use='use2, use3, ', lit='lit, ', rep='rep, ',
        tokens='use types.Tokens.{lft-new, lft-end}\n', denote='use denote.Array.{Array, arrayVal, array-repeat, array-lawful}\n', lend='use denote.Lend.{Held}\n').replace('Steps.{only, ', 'Steps.{'))
    w('''use Rattle·method.specs.Entry.{Run, empty-record, run-hex}
use Rattle·zimbralosa·specs.specs.Entries.{lent, Ran, own-roll, RanHere}
use Rattle·zimbralosa·proofs.proofs.Alloc.{block-of, alloc-all}
use Rattle·zimbralosa·proofs.proofs.Clearing.{empty-is}
use Rattle·zimbralosa·proofs.proofs.Local.{lends-array, array-gone}''')
    w(STRUCTS + '\nuse Rattle·method.proofs.Record.Laws as T′')
    callee(w, 'Rattle·zimbralosa·proofs.proofs.from_hex', 'callee', HEX)
    itself(w, e.fn)
    w('''-- the roll stays shut: antt is not to compute it
roll-is : own-roll ≡ replicate %d empty-record
unfolding own-roll
roll-is = refl

roll-length : length own-roll ≡ %d
roll-length = ap length roll-is ∙ length-replicate %d empty-record

roll-room : Room T.the-row %d
roll-room = (lit< tt, lit< tt)

-- its machine value, shut likewise
rv : Val
rv = arrayVal (replicate %d (T′.lowered empty-record))

rv-is : arrayVal (replicate %d (T′.lowered empty-record)) ≡ rv
unfolding rv
rv-is = refl

-- the roll is gone
here : {R : Run} {a b s q : List ℤ} {l : List Record} {r : Answer} → Ran R a b s q l r → RanHere R a b s q r
here h = record { answer = h .answer; first = h .first; second = h .second; rows = h .rows; result = h .result }
''' % ((RECORDS,) * 6))
    e.stayed()
    w('-- the contract that the proof cites')
    contract(w, 'Hex', 'callee')
    e.module()
    run = 'run-hex m input (lent %s own-roll)' % ' '.join('ys' + s for s in N)
    KX, QX = nest(['κ' + s for s in e.NU] + ['ξ ∷ []']), nest(['q' + s for s in e.NU] + ['fullShare'])
    toks = ['‵ (flft κ%s q%s)' % (s, s) for s in e.NU] + ['‵ (flft (ξ ∷ []) fullShare)']
    owned = ['‵ (ShrSlice (named 0) κ₀ u8 .own x₀ (s₀ ∷ []))'] + ['‵ (MutSlice (named %d) κ%s i32 .own x%s (s%s ∷ []))' % (1 + k, s, s, s) for k, s in enumerate(N)] + ['‵ (MutSlice (named %d) (ξ ∷ []) T.the-row .own (z b η) (zs b ∷ []))' % (S + 1)]
    w('''  -- the roll that is lent, in the block b
  abbrev z : ℕ → GName → RefT (List Record)
  z b η = record { ptr = (b, 0); name = η; now = own-roll }

  abbrev zs : ℕ → Val
  zs b = sliceVal (b, 0) %d

  abbrev passed : ℕ → GName → %s
  passed b η = %s

  abbrev to : ℕ → ℕ → GName → Hex 𝓤 H A at-mem run .Ghost
  to b ξ η = ((%s, %s, tt, passed b η, %s), tt)

  abbrev Given-up : ℕ → ℕ → GName → List (Item 𝓤)
  Given-up b ξ η = %s

  goes : (b ξ : ℕ) (η : GName) → ent 𝓤 (⋆ 𝓤 H A (Given-up b ξ η)) (Hex 𝓤 H A at-mem run .pre (to b ξ η))
  goes b ξ η =
      qed W (Given-up b ξ η) ∵''' % (RECORDS, nest_type(['RefT (List ℕ)'] + TUPLE + ['ℕ']), nest(['x₀'] + ['x' + s for s in N] + ['z b η', 'm']),
        KX, QX, nest(['s%s ∷ []' % s for s in e.NU] + ['zs b ∷ []', 'vint w64 m ∷ []']), lst(toks + owned)))
    names = e.NU + [R]
    gives_up(e, names, names, WORD, '')
    e.exits(run, told='RanHere')
    cx = begins(e, 'known')
    arr, ty, b = 'Array T.the-row %d' % RECORDS, '(tyArray T′.mir %d)' % RECORDS, '(block-of %d bs)' % roll
    cx.pr('assigns ! (agg ! (and-then ! (lit ! tt) (and-then ! (lit ! tt) (and-then ! (lit ! tt) (no-more !))))) (from ! (stop !)) (init ! %d refl (LL.lawful T.the-type T′.the-laws 𝓤 H A W .typed empty-record _ empty-is .0)) $' % cx.L(roll + 1))
    cx.pr('-- the roll: what it owns, and the array')
    cx.pr('owned ! T.the-row (Is T.the-row) (LL.makes T.the-type T′.the-plain 𝓤 H A) empty-record (T′.lowered empty-record ∷ []) empty-is $')
    cx.c = ['own'] + cx.c
    av = 'arrayVal (replicate %d (T′.lowered empty-record))' % RECORDS
    cx.pr('use1 W (‵ (%s .own (replicate %d empty-record) (%s ∷ []))) (array-repeat 𝓤 H A W T.the-row (LL.copy T.the-type T′.the-copy 𝓤 H A W) %d empty-record (T′.lowered empty-record)) $' % (arr, RECORDS, av, RECORDS))
    cx.pr('rewrite ! 0 (λ (l : List Record). ‵ (%s .own l (%s ∷ []))) (sym roll-is) refl $' % (arr, av))
    cx.pr('rewrite ! 0 (λ (u : Val). ‵ (%s .own own-roll (u ∷ []))) rv-is refl $' % arr)
    cx.opens('peeks ! (%s) (Is (%s)) (shows 𝓤 H A (%s)) own-roll (rv ∷ []) (λ are.' % (arr, arr, arr))
    cx.pr('assigns ! (rep ! %d (load ! (from ! (stop !)) (look ! %d refl))) (from ! (stop !)) (init ! %d refl (subst (λ (u : Val). Holds (hasTy %s u) × WT u) (sym rv-is) (array-lawful 𝓤 H A W T.the-row (LL.lawful T.the-type T′.the-laws 𝓤 H A W) %d .typed own-roll _ are .0))) $' % (RECORDS, cx.L(roll + 1), cx.L(roll), ty, RECORDS))
    cx.pr('rewrite ! %d (λ (u : Val). ‵ (fat fullShare %s %s 0 u)) rv-is refl $' % (cx.L(roll), ty, b))
    for k, s in enumerate(N):
        cx.address(2 + k, tmp + 2 * k)
        cx.slice(tmp + 2 * k, 2 + k, tmp + 2 * k + 1, 'room%s .0' % s)
    cx.pr('assigns ! (addr ! (from ! (stop !))) (from ! (stop !)) (init ! %d refl (tt, tt)) $' % cx.L(ref))
    cx.pr('assigns ! (agg ! (and-then ! (load ! (from ! (stop !)) (look ! %d refl)) (and-then ! (lit ! tt) (no-more !)))) (from ! (stop !)) (init ! %d refl (tt, (tt, (record { fits = lit< tt }, tt)))) $' % (cx.L(ref), cx.L(ref + 1)))
    cx.pr('-- it is lent for a lifetime of the call')
    cx.opens('lft-new ! tt (λ ξ.')
    cx.c = ['t' + R] + cx.c
    cx.front(['L%d' % roll, 'own'])
    cx.opens('use2 W (later (some (λ (η : GName). ‵ (MutSlice (named %d) (ξ ∷ []) T.the-row .own (z %s η) (zs %s ∷ [])) ⊛ ‵ (flent (ξ ∷ []) (Held T.the-row %d %s 0 η))))) (lends-array T.the-row tt %d (ξ ∷ []) %s 𝓤 H A W (named %d) own-roll _ roll-length roll-room) $ await ! tt $ pick ! (λ η. split ! $' % (S + 1, b, b, RECORDS, b, RECORDS, b, S + 1))
    cx.put(2, 'm' + R, 'le')
    e.splits(cx)
    lent_names = ['t' + s for s in names] + ['m' + s for s in names]
    cx.front(lent_names)
    cx.pr('group ! %d $ use1 W (raw (Hex 𝓤 H A at-mem run .pre (to %s ξ η))) (goes %s ξ η) $' % (len(lent_names), b, b))
    cx.put(len(lent_names), 'pre')
    cx.opens('calls-at ! fm (Hex 𝓤 H A at-mem run) known (to %s ξ η) %s (λ v.' % (b, cx.operands([1] + [tmp + 2 * k + 1 for k in range(S)] + [ref + 1, S + 2])))
    last = {s: '(%s)' % sel('ws', k + 1) for k, s in enumerate(ALL)}
    heard(cx, 'callee', KX, '(passed %s η)' % b, ('ws', ['Unit {0}'] + ['List ℤ'] * S + ['List Record', 'Unit {0}']), 'N.the-row', 'Answer', 'r', 'v', ' ⊛ '.join(toks + ['‵ ftrue']), 'Ran (%s) %s r' % (run, ' '.join(last[s] for s in ALL)), 'e')
    e.lasts(cx, ALL)
    tokens_of(cx, e.NU)
    cx.front(['toks'])
    cx.pr('split ! $ lft-end ! tt $')
    cx.put(1, 'dd', 'toks')
    cx.front(['dd', 'le', 'fin' + R])
    cx.pr('use3 W (later (‵ (froom %s %s 0))) (array-gone T.the-row tt %d (ξ ∷ []) %s 𝓤 H A W (named %d) η %s) $ await ! tt $' % (ty, b, RECORDS, b, S + 1, last[R]))
    cx.put(3, 'L%d' % roll)
    cx.drop(['toks', 'las', 'lm'])
    e.answers(cx, [i for i in range(e.count) if i != roll], 'exits r v %s (here e) %s' % (' '.join(last[s] for s in N), ' '.join('len' + s for s in N)))
    e.closes('via 𝓤 _ (fst∗ 𝓤 _ (emp 𝓤))', e.triples, 'known', [('Hex', HEX, 'callee')])


# ---- zimbralosa_region: all is passed on to `from_hex`, then the answer's counts are put down
def region():
    answer = S + 5                                           # the locals: the answer
    tmp = answer + 1                                         # two for each store and the roll
    ref = tmp + 2 * (S + 1)                                  # two for the counts
    put = 'zimbralosa·exports·put-counts'
    e = Entry('zimbralosa_region', None, ref + 2, after=[COUNTS], inner='exports', answer=False)
    C = COUNTS
    e.triples = ['Triple 𝓤 (𝓣 .C #%s) (Hex 𝓤 H A at-mem run)' % HEX, 'Triple 𝓤 (𝓣 .C #%s) (Put 𝓤 H A at-mem run)' % put]
    w = e.w
    w('''-- `zimbralosa::exports::zimbralosa_region` meets its contract: a walk of its MIR. `from_hex` gets the stores and the roll for good, then `put_counts` the counts. All that the proof knows of the two is that each meets its contract.
-- Assumes nothing.''')
    w(imports(path='_≡_, refl, ap, subst, _∙_', syntax='w8, ').replace('.Plain.{', '.Plain.{uint-lawful, ').replace('.Builtin.{u8, i32, usize}', '.Builtin.{u8, i32, u64, usize}'))
    w('''use Rattle·sets.specs.Outcomes.{outcome-number}
use Rattle·method.specs.Entry.{Run, run-hex}
use Rattle·zimbralosa·specs.specs.Entries.{lent, Ran}
use Rattle·zimbralosa·specs.specs.Exports.{counts-after, Counted, RegionCounted}
use Rattle·zimbralosa·proofs.proofs.Alloc.{block-of, alloc-all}''')
    w(STRUCTS)
    callee(w, 'Rattle·zimbralosa·proofs.proofs.from_hex', 'callee', HEX)
    callee(w, 'Rattle·zimbralosa·proofs.proofs.exports.put_counts', 'putter', put)
    itself(w, e.fn, 'exports')
    w('''-- a run's answer, and its counts
counted : {R : Run} {c c′ : List ℕ} {a b s q : List ℤ} {l : List Record} {t : Answer} {r : ℕ} → Ran R a b s q l t → Counted t c c′ r → RegionCounted R c a b s q l c′ r
counted {c = c} h k = record {
  number = k .number ∙ ap (λ (x : Answer). outcome-number (x .outcome)) (h .answer);
  counts = k .counts ∙ ap (λ (x : Answer). counts-after x c) (h .answer);
  first = h .first;
  second = h .second;
  rows = h .rows;
  result = h .result;
  roll = h .roll;
}
''')
    e.stayed()
    w('-- the contracts that the proof cites')
    contract(w, 'Hex', 'callee')
    contract(w, 'Put', 'putter')
    w('''-- the machine value of the answer, and that it has its type
abbrev vN : Answer → Val
vN t = LL.val N.the-type N′.the-laws t

is-made : (t : Answer) (v : Val) → Is N.the-row t (v ∷ []) → Is N.the-row t (vN t ∷ [])
is-made t v is = subst (λ (vs : List Val). Is N.the-row t vs) (LL.tells N.the-type N′.the-laws t _ is) is
''')
    e.module()
    run = 'run-hex m input ' + LENT
    names = [ZERO] + ALL
    KX, QX = nest(['κ' + s for s in names]), nest(['q' + s for s in names])
    toks = ['‵ (flft κ%s q%s)' % (s, s) for s in names]
    owned = ['‵ (ShrSlice (named 0) κ₀ u8 .own x₀ (s₀ ∷ []))'] + ['‵ (MutSlice (named %d) κ%s %s .own x%s (s%s ∷ []))' % (1 + k, s, ROW[s], s, s) for k, s in enumerate(ALL)]
    w('''  abbrev passed : %s
  passed = %s

  abbrev to : Hex 𝓤 H A at-mem run .Ghost
  to = ((%s, %s, tt, passed, %s), tt)

  abbrev Given-up : List (Item 𝓤)
  Given-up = %s

  goes : ent 𝓤 (⋆ 𝓤 H A Given-up) (Hex 𝓤 H A at-mem run .pre to)
  goes =
      qed W Given-up ∵''' % (nest_type(['RefT (List ℕ)'] + TUPLE + ['ℕ']), nest(['x' + s for s in names] + ['m']), KX, QX, nest(['s%s ∷ []' % s for s in names] + ['vint w64 m ∷ []']), lst(toks + owned)))
    gives_up(e, names, names, WORD, '')
    w('''
  abbrev counting : Answer → Answer × (RefT (List ℕ) × (Unit {0}))
  counting t = (t, (x@, tt))

  abbrev to-put : Answer → Put 𝓤 H A at-mem run .Ghost
  to-put t = (((κ@, tt), (q@, tt), tt, counting t, (vN t ∷ [], (s@ ∷ [], tt))), tt)

  abbrev Given-put : List (Item 𝓤)
  Given-put = ‵ (flft κ@ q@) ∷ ‵ (MutSlice (named 0) κ@ u64 .own x@ (s@ ∷ [])) ∷ []

  goes-put : (t : Answer) → Is N.the-row t (vN t ∷ []) → ent 𝓤 (⋆ 𝓤 H A Given-put) (Put 𝓤 H A at-mem run .pre (to-put t))
  goes-put t t-is =
      qed W Given-put ∵'''.replace('@', C))
    gives_up(e, [C], [C], '', the_row('N', 't', 't-is') + ' fjoin ! $')
    e.exits(run, told='RegionCounted')
    cx = begins(e, 'known known-put')
    e.splits(cx)
    cx.pr('-- `from_hex`')
    for k, s in enumerate(ALL):
        cx.address(2 + k, tmp + 2 * k)
        cx.slice(tmp + 2 * k, 2 + k, tmp + 2 * k + 1, 'room%s .0' % s)
    lent_names = ['t' + s for s in names] + ['m' + s for s in names]
    cx.front(lent_names)
    cx.pr('group ! %d $ use1 W (raw (Hex 𝓤 H A at-mem run .pre to)) goes $' % len(lent_names))
    cx.put(len(lent_names), 'pre')
    cx.opens('calls-at ! fm (Hex 𝓤 H A at-mem run) known to %s (λ v₁.' % cx.operands([1] + [tmp + 2 * k + 1 for k in range(S + 1)] + [S + 3]))
    last = {s: '(%s)' % sel('ws', k + 1) for k, s in enumerate(ALL)}
    last[C] = '(us .1 .0)'
    heard(cx, 'callee', KX, 'passed', ('ws', ['Unit {0}'] + ['List ℤ'] * S + ['List Record', 'Unit {0}']), 'N.the-row', 'Answer', 't', 'v₁', ' ⊛ '.join(toks + ['‵ ftrue']), 'Ran (%s) %s t' % (run, ' '.join(last[s] for s in ALL)), 'e₁')
    e.lasts(cx, ALL)
    tokens_of(cx, names)
    cx.drop(['toks', 'las', 'lm'])
    cx.lands('N', 't', 'v₁', 'is₁', answer, '(block-of %d bs)' % answer)
    cx.pr('-- `put_counts`')
    cx.address(S + 4, ref)
    cx.slice(ref, S + 4, ref + 1, 'room%s .0' % C)
    cx.front(['t' + C, 'm' + C])
    cx.pr('group ! 2 $ use1 W (raw (Put 𝓤 H A at-mem run .pre (to-put t))) (goes-put t (is-made t v₁ is₁)) $')
    cx.put(2, 'pre')
    cx.opens('calls-at ! fm (Put 𝓤 H A at-mem run) known-put (to-put t) %s (λ v.' % cx.operands([answer, ref + 1]))
    heard(cx, 'putter', '(κ%s, tt)' % C, '(counting t)', ('us', ['Unit {0}', 'List ℕ']), 'u8', 'ℕ', 'r', 'v', '‵ (flft κ%s q%s) ⊛ ‵ ftrue' % (C, C), 'Counted t ys%s %s r' % (C, last[C]), 'e')
    e.lasts(cx, [C])
    tokens_of(cx, [C])
    cx.drop(['toks', 'las', 'lm'])
    e.answers(cx, list(range(e.count)), 'exits r v %s (counted e₁ e) %s' % (' '.join(last[s] for s in e.slices), ' '.join('len' + s for s in e.slices)))
    e.closes('via 𝓤 _ (fst∗ 𝓤 _ (emp 𝓤))', e.triples, 'known known-put', [('Hex', HEX, 'callee'), ('Put', put, 'putter')])


if __name__ == '__main__':
    here()
    region()
