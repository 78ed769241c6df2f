import re,glob
for f in sorted(glob.glob('crates/*/src/*.rt')):
    s=open(f).read()
    for m in re.finditer(r'^(?:pub )?enum (\w+) \{\n((?:.*\n)*?)\}',s,re.M):
        v=re.findall(r'^    (\w+)(?:\((.*)\))?,',m[2],re.M)
        full=[p for n,p in v if p]; ref=[n for n,p in v if p=='Refusal']
        kind='one variant' if len(v)==1 else 'Option' if len(v)==2 and len(full)==1 else \
            'Result' if len(v)==2 and ref else 'Result with more than one good case' if ref else 'other'
        print(f'{f}:{s[:m.start()].count(chr(10))+1} {m[1]} {kind}: '+', '.join(n+(f'({p})' if p else '') for n,p in v))
