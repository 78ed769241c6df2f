import re,glob
for f in sorted(glob.glob('crates/*/src/*.rt')):
    L=open(f).read().split('\n')
    for i,l in enumerate(L):
        m=re.match(r'( *)(?:pub )?(?:extern "C" )?fn (\w+)',l)
        if not m: continue
        j=next(k for k in range(i,len(L)) if L[k]==m[1]+'}'); b='\n'.join(x for x in L[i:j] if not re.match(r' +(requires|ensures)|^ *//',x)); w=[]
        if re.search(r'\w+::\w+(?:\(\w*\))? =>\s*(?:\w+::\w+|Boomspool)',b): w.append('match that carries one type\'s cases into another')
        if re.search(r'(?s)(?:\w+: (?:\w+\.)+\w+,\s*){3,}',b): w.append('struct copied field by field')
        if re.search(r'\bevicted\b',b,re.I) and re.search(r'\bidle\b',b,re.I): w.append('the six totals one by one')
        if w: print(f'{f}:{i+1} {m[2]} - '+'; '.join(w))
