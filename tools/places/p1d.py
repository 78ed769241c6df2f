import re,glob
V=r'(0|u64::MAX|[A-Z]\w+::[A-Z_]+|none|\w+\.stop|\w+\.number)'; F=[]; T=('u8','u32','u64','usize','Part','Token','&mut [u32]')
for f in sorted(glob.glob('crates/*/src/*.rt')):
    L=open(f).read().split('\n')
    for i,l in enumerate(L):
        m=re.match(r'( *)(?:pub )?(?:extern "C" )?fn (\w+)',l)
        if m:
            j=next(k for k in range(i,len(L)) if L[k]==m[1]+'}'); b=next(k for k in range(i,j) if L[k][-1:]=='{')
            r=re.search(r'\) -> ([^{]*?)(?: *\{| *requires| *ensures|  |$)',' '.join(L[i:b+1])+' ')
            if r and r[1].strip() in T: F.append((f'{f}:{i+1}',m[2],r[1].strip(),f.split('/')[1]+'::','\n'.join(L[b+1:j])))
S={}
for _ in range(4):
    for w,n,r,c,s in F:
        h={x for a in re.findall(r'^ +return '+V+';$|^ +'+V+r'$|=> '+V+r',|\{ '+V+r' \}|number: (0),|let mut (?:last) = '+V,s,re.M) for x in a if x}|{'by '+x for x in re.findall(r'^ +(?:return )?((?:\w+::)?\w+)\(.*\);?$',s,re.M) if any(y in S.values() for y in ((r,c+x),(r,x)))}
        if h: S[w]=(r,c+n); print(w,n,'->',r+':',', '.join(sorted(h))) if _==3 else 0
