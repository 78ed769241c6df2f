import re,glob,collections,itertools
P=collections.Counter(); W=collections.defaultdict(list)
for f in sorted(glob.glob('crates/*/src/*.rt')):
    s=open(f).read()
    for m in re.finditer(r'^ *(?:pub )?(?:extern "C" )?fn (\w+)(?:<.*?>)?\(([^{]*?)\)(?: ->|\n| \{)',s,re.M):
        a=sorted({x[0]+': '+x[1].replace('&mut ','').replace('&','').replace('Ticket','u32') for x in re.findall(r'(\w+): ([^,]+?(?:\([^)]*\))?)(?:,|\s*$)',m[2].strip())})
        for x in a: P[x]+=1
        for n in (2,3,4):
            for x in itertools.combinations(a,n): W[x].append(f'{f}:{s[:m.start()].count(chr(10))+1} {m[1]}')
for x,v in sorted(W.items(),key=lambda y:(-len(y[1]),y[0])):
    if len(v)>2 and len(v)>=.75*min(P[y] for y in x): print(len(v),' with '.join(f'{y} ({P[y]})' for y in x)+':',' | '.join(v))
