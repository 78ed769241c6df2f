import re,glob,collections
G=collections.defaultdict(list)
for f in sorted(glob.glob('crates/*/src/*.rt')):
    L=open(f).read().split('\n')
    for i,l in enumerate(L):
        m=re.match(r'( *)(?:pub )?(?:extern "C" )?(?:fn|enum|struct) (\w+)',l)
        if not m or l.endswith('{}'): continue
        j=next(k for k in range(i,len(L)) if L[k]==m[1]+'}'); s='\n'.join(x for x in L[i:j+1] if not re.match(r' +(requires|ensures)|^ *//',x))
        names={}
        K='fn if else while let mut return match pub enum struct as true false for in break extern'.split()
        t=re.findall(r'\w+|[^\s\w]',re.sub(r'b?"[^"]*"','S',re.sub(r',(\s*[)}\]])',r'\1',s)))
        n=[w if w in K or not re.match(r'\w',w) else '0' if re.match(r'\d',w) else 'T' if re.match(r'[A-Z]|u\d+$|usize|bool',w) else names.setdefault(w,'v%d'%len(names)) for w in t if w not in('pub',)]
        G[' '.join(n)].append(f'{f}:{i+1} {m[2]}')
for k,v in sorted(G.items(),key=lambda x:(-len(x[1]),x[1])):
    if len(v)>1: print(len(v),'alike:',' | '.join(v))
