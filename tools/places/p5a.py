import re,glob,collections
def one(x):
    x=x.strip()
    while x.count('(')>x.count(')') and x[0]=='(': x=x[1:]
    while x.count(')')>x.count('(') and x[-1]==')': x=x[:-1]
    return x[1:-1] if x[0]=='(' and x[-1]==')' else x
G=collections.defaultdict(dict); fn=''
for f in sorted(glob.glob('crates/*/src/*.rt')):
    for i,l in enumerate(open(f),1):
        m=re.match(r' *(?:pub )?(?:extern "C" )?fn (\w+)',l); fn=f'{f}:{i} {m[1]}' if m else fn
        m=re.match(r' +(requires|ensures)(?: \w+)? \{ (.*) \}$',l)
        for x in map(one,re.sub(r'\.(now|old|new)\b','',m[2]).split(' × ')) if m else []:
            for k in sorted({x,re.sub(r'^([A-Z]\w+(?: (?:q|t|out|at|result|\(length t\)|p))*) .*',r'\1 ..',x),re.sub(r'^\w+ < q$','(any) < q',x),re.sub(r'^length (\w+) ',r'length (any) ',x)}): G[m[1]+' '+k][fn]=1
for k,v in sorted(G.items(),key=lambda x:(-len(x[1]),x[0])): len(v)>2 and print(len(v),k+':',' | '.join(v))
