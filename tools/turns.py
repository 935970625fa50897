"""turns.py FILES: fills the printed skeletons (tools/skel.py) of counting loops that promise nothing but their end.

The invariant says that the counter has not passed its end and that a lent slice `out` keeps its length; everything else is left to `search needs`.
A counter named i ends at n and one named k at rounds, unless the loop has an end of its own (i-end).
For an older Rattle, whose skeletons (Proof.antt) had a line for each goal: today two definitions in Invariants.antt are enough.
"""
import re
import sys

for f in sys.argv[1:]:
    s=open(f).read()
    if '?' not in s: continue
    s=re.sub(r' =\n +\?\n',' = ?\n',s)
    m=re.search(r'\nInv-(\S+) (.*?) = \?\n',s)
    need_len=False
    if m:
        name,args=m.group(1),m.group(2).split()
        i=args[-1]
        if 'i-end' in args or 'k-end' in args or 'r-end' in args:
            end=[a for a in args if a.endswith('-end')][0]
        else:
            end={'i':'n','k':'rounds'}[i]
        bufs=[a for a in args if a+'₀' in args and a in ('out',)]
        inv=f'{i} ≤ {end}'
        if bufs:
            inv=f'({inv})'+''.join(f' × (length {b} ≡ length {b}₀)' for b in bufs)
            need_len=True
        s=s.replace(f'Inv-{name} {m.group(2)} = ?',f'Inv-{name} {m.group(2)} = {inv}')
        s=re.sub(r'μ-'+re.escape(name)+r' (.*?) = \?',lambda k: f'μ-{name} {k.group(1)} = {end} - {i}',s)
    s=re.sub(r'-requires c κs = \?','-requires c κs = tt',s)
    s=re.sub(r' c = \?',' c = search needs',s)
    lines=s.split('\n')
    out=[]
    uses=['use Prim.Native.Nat.{_≤_, _-_}','use borrow.Author.Needs.{needs}']
    if need_len: uses=['use Prim.Native.Nat.{_≤_, _-_}','use mathlib.Core.Path.{_≡_}','use lib.ListN.{length}','use borrow.Author.Needs.{needs}']
    if not m: uses=['use borrow.Author.Needs.{needs}']
    body=[l for l in lines if not (l.startswith('use ') and (' as reads' in l or ' as lts' in l or '-reads' in l)) and not l.startswith('-- src/')]
    s='\n'.join(['-- The turns to come are one less each turn.' if m else '-- What each place needs stands before it.']+uses+body)
    open(f,'w').write(s)
