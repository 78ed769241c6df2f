import re,glob,collections
G=collections.defaultdict(list)
for f in sorted(glob.glob('crates/*/src/*.rt')):
    L=open(f).read().split('\n'); fn=''
    for i,l in enumerate(L):
        m=re.match(r' *(?:pub )?(?:extern "C" )?fn (\w+)',l); fn=m[1] if m else fn
        m=re.match(r'( *)(?:.*= )?match (.*) \{$',l); n=re.search(r'if let (\w+::\w+)|let (\w+::\w+)\(.*else',l)
        if m:
            j=next(k for k in range(i,len(L)) if L[k].rstrip(';')==m[1]+'}')
            arms=[re.sub(r'\(.*','',a) for a in re.findall(r'^'+m[1]+r'    (\S.*?) =>','\n'.join(L[i:j]),re.M)]
            G[' / '.join(sorted(arms))].append(f'{f}:{i+1} {fn}')
        elif n: G['if let '+(n[1] or n[2])].append(f'{f}:{i+1} {fn}')
for k,v in sorted(G.items(),key=lambda x:-len(x[1])): print(len(v),k+':',' | '.join(v))
