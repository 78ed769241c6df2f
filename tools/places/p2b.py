import re,glob,difflib,sys
R=[]; lim=float(sys.argv[1]); C={}; n=0
for f in sorted(glob.glob('crates/*/src/*.rt')):
    L=open(f).read().split('\n')
    for i,l in enumerate(L):
        m=re.match(r'( *)(?:pub )?(?:extern "C" )?fn (\w+)',l)
        if not m: continue
        j=next(k for k in range(i,len(L)) if L[k]==m[1]+'}'); s='\n'.join(x for x in L[i:j+1] if not re.match(r' +(requires|ensures)|^ *//',x)).replace('pub ','').replace(m[2],'F')
        R.append((f'{f}:{i+1} {m[2]}',['0' if re.match(r'\d',w) else 'T' if re.match(r'[A-Z]|u\d+$|usize',w) else w for w in re.findall(r'\w+|[^\s\w]',s)]))
for x,(p,a) in enumerate(R):
    for q,b in R[x+1:]:
        d=difflib.SequenceMatcher(None,a,b,autojunk=False)
        if min(len(a),len(b))>=25 and d.quick_ratio()>=lim and d.ratio()>=lim: n+=1; u=C.get(p,{p})|C.get(q,{q}); [C.__setitem__(z,u) for z in u]
print(n,'pairs,',len(C),'functions'); [print(len(u),' | '.join(sorted(u))) for u in sorted({frozenset(u) for u in C.values()},key=lambda u:(-len(u),min(u)))]
