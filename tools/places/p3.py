import re,glob
for f in sorted(glob.glob('crates/*/src/*.rt')):
    L=open(f).read().split('\n'); fn=''
    for i,l in enumerate(L):
        m=re.match(r' *(?:pub )?(?:extern "C" )?fn (\w+)',l); fn=m[1] if m else fn
        m=re.match(r'( *)while (.*) \{$',l)
        if not m: continue
        j=next(k for k in range(i,len(L)) if L[k]==m[1]+'}'); b='\n'.join(L[i+1:j]); ind='^'+m[1]+'    '
        up=[x for x,n in re.findall(ind+r'(\w+) \+= (\d+);',b,re.M) if re.search(r'\b'+x+r'\b',m[2])]
        down=[x for x in re.findall(ind+r'(\w+) -= 1;',b,re.M)]
        kind='index '+up[0] if up else 'divides' if '/ 10' in b else 'links' if re.search(r'\bat = (table::|t\[|heavier)',b) else 'cursor or call'
        kind+=' and counts '+down[0]+' down' if down and kind!='divides' else ''
        print(f'{f}:{i+1} {fn} while {m[2]} - {kind}')
