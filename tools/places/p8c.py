import re,glob,collections,sys
G=collections.defaultdict(lambda:collections.defaultdict(list)); norm=len(sys.argv)>1
for f in sorted(glob.glob('crates/*/proofs/**/Answers.antt',recursive=True)):
    s=open(f).read()
    for m in re.finditer(r'^([a-z][^ \n]*)(?: g)? c =((?: .*)?(?:\n+ +.*)*)',s,re.M):
        if f'{m[1]} : goal.{m[1]}\n' not in s: continue
        r=re.sub(r'\s+',' ',m[2]).strip()
        if norm: r=re.sub(r'search \(\w+(, \w+)*, rules\)','search (L, rules)',re.sub(r'\bc((?:\.[\w-]+)+)',lambda x:'c'+re.sub(r'\.(?!requires|ensures|invariant|args|true|false|\d)[\w-]+','.X',x[1]),r))
        G[f.split('/')[1]][r].append(f'{f}:{s[:m.start()].count(chr(10))+1} {m[1]}')
A=sorted(((len(v),c,r,v) for c,d in G.items() for r,v in d.items() if len(v)>2),key=lambda a:(-a[0],a[1],a[2]))
print(len(A),'repeated right-hand sides, in',sum(x[0] for x in A),'answers, of',sum(len(v) for d in G.values() for v in d.values()))
for n,c,r,v in A: print(n,c,r,'::',' | '.join(v))
