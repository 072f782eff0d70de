#!/usr/bin/env python3
"""if◌then◌else◌ comes from the library's Prelude, and texts no longer declares it: python3 tools/library_if.py . at the top, once, after the other two"""
import re,os,sys
root=sys.argv[1]
N='if◌then◌else◌'
n=0
for d,ds,fs in os.walk(os.path.join(root,'crates')):
    ds[:]=[x for x in ds if x!='out']
    for f in fs:
        if not f.endswith(('.antt','.rt')): continue
        p=os.path.join(d,f); s=open(p).read(); o=s
        def drop(m):
            names=[x.strip() for x in m.group(3).replace('\n',' ').split(',') if x.strip() and x.strip()!=N]
            if not names: return ''
            multi='\n' in m.group(3)
            if multi: return m.group(1)+m.group(2)+'.{\n  '+',\n  '.join(names)+',\n}'+m.group(4)+'\n'
            return m.group(1)+m.group(2)+'.{'+', '.join(names)+'}'+m.group(4)+'\n'
        found=False
        for m in re.finditer(r'((?:pub |ghost )?use )(Rattle\.texts\.specs\.Lists)\.\{([^}]*)\}(;?)\n',s):
            if N in m.group(3): found=True
        if found:
            s=re.sub(r'((?:pub |ghost )?use )(Rattle\.texts\.specs\.Lists)\.\{([^}]*)\}(;?)\n',lambda m: drop(m) if N in m.group(3) else m.group(0),s)
            m=re.search(r'((?:ghost )?use Rattle\.std\.specs\.Prelude\.\{)([^}]*)(\})',s)
            if m and N not in m.group(2):
                body=m.group(2).rstrip()
                if '\n' in body: body=body.rstrip(',')+',\n  '+N+',\n'
                else: body=body.rstrip(',')+', '+N
                s=s[:m.start()]+m.group(1)+body+m.group(3)+s[m.end():]
            elif not m:
                line=('ghost ' if f.endswith('.rt') else '')+'use Rattle.std.specs.Prelude.{'+N+'}'+(';' if f.endswith('.rt') else '')+'\n'
                k=re.search(r'(?m)^(?:pub |ghost )?use ',s).start()
                s=s[:k]+line+s[k:]
        if p.endswith('texts/specs/Lists.antt') and 'infixr 15 '+N in s:
            i=s.index('infixr 15 '+N); j=s.index('infixl 18')
            s=s[:i]+s[j:]
            s=s.replace('Prelude.{ℕ, ◌+◌, Bool, true, false,','Prelude.{ℕ, ◌+◌, Bool, true, false, if◌then◌else◌,',1)
        if s!=o: open(p,'w').write(s); n+=1
print(n,'files')
