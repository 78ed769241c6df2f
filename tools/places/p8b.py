import re,glob,collections
T=collections.Counter()
for f in sorted(glob.glob('crates/*/proofs/*.antt')):
    L=open(f).read().split('\n'); c=f.split('/')[1]; T[c,0]+=1
    for i,l in enumerate(L):
        m=re.match(r'( *)(pub )?([^\s:=()]+) :( |$)',l)
        nxt=m and next((x for x in L[i+1:] if x.strip() and len(x)-len(x.lstrip())<=len(m[1]) and not x.strip().startswith('unfolding')),'')
        if m and re.match(m[1]+re.escape(m[3])+r'( |$)',nxt): T[c,1]+=1; T[c,2]+=bool(m[2])
for c in sorted({x for x,_ in T}): print(c,T[c,0],T[c,1],T[c,2])
print('total',*[sum(v for k,v in T.items() if k[1]==n) for n in (0,1,2)])
