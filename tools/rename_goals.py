#!/usr/bin/env python3
"""Brings the Proof.antt files of one crate to the names that today's check gives goals, steps and places.

usage: python3 tools/rename_goals.py NAMES CRATE [FUNCTION..]      at the top of the repository

NAMES is the names.json that 'rt check --generated FOLDER --old-names' writes in the crate's folder, while the old Proof.antt files still stand there. The
crates below have to be proved. A file may be turned once alone: 'git checkout' it before another try. FUNCTION is as in names.json, as operations.submit.

Goals ('tie.Need-..'), places ('tie.After-..') and fields of steps get their new names, paths to facts lose their '.before', the way from a goal to the
place of a lemma is counted anew, tests of a Bool need no 'not-true' or 'not-false' any more, and the list of answers loses goals that are settled. What is
printed, and what the check then refuses, is left to do by hand.
"""
import json,re,sys,os
if len(sys.argv)<3: sys.exit(__doc__)
names=json.load(open(sys.argv[1],encoding='utf-8')); crate=os.path.join('crates',sys.argv[2])
only=set(sys.argv[3:])
norm=lambda s: re.sub('[-_]','',s).lower()
W=r"[A-Za-z_+][\w'+-]*"
import glob
MUTS={}
for f in glob.glob('crates/*/src/*.rt'):
    for m in re.finditer(r"fn (\w+)(?:<[^>]*>)?\(([^)]*)\)",open(f,encoding='utf-8').read()):
        MUTS[m.group(1)]=re.findall(r"(\w+): &(?:'\w+ )?mut",m.group(2))
def run(fn,e,path):
    t=open(path,encoding='utf-8').read()
    head,sep,body=t.partition('as tie\n')
    if not sep: print('hand walk',path); return
    needs={norm(o):(n,pl) for (o,n),pl in zip(e['needs'],e['asked_at'])}
    P=e['places']; byname=e['places_by_name']
    parent={}; newof={}
    for p,n in zip(P,byname): newof[p[0]]=n; parent[p[0]]=p[1]
    normplace={norm(p[0]):p[0] for p in P}
    labels={}
    argnames=set()
    for (l,vs) in e['loops']: argnames|=set(vs)
    for vs in e['params'].values(): argnames|=set(vs)
    used_args=set(re.findall(r'\.args\.([A-Za-z_]\w*)',body))
    for x in re.findall(r'let (\w+) = [\w.]*\.args in',body): used_args|=set(re.findall(r'\b'+x+r'\.([A-Za-z_]\w*)',body))
    for p in P:
        o,n=p[2]
        if o and o not in used_args: labels.setdefault(norm(o),n)
    loops={norm(o):n for (o,n),vs in e['loops']}
    missing=[]
    armn={}
    for pp,a in zip(P,e.get('arms') or []):
        if a: armn[pp[0]]=a[1]
    def up(a):
        for _ in range(armn.get(a,1)): a=parent.get(a)
        return a
    def depth(a,b):
        k=0
        while a is not None and a!=b: a=up(a); k+=1
        return k if a==b else None
    calls={norm(pp[2][1]) for pp in P if pp[3]}
    callee={pp[2][1]:pp[3] for pp in P if pp[3]}
    def need(w):
        k=norm(w)
        for kk in (k,re.sub('^(overflow|nonzero|slicebounds|bounds)','',k)):
            if kk in needs: return needs[kk]
    def tie(m):
        w=m.group(1)
        if w.startswith('Need-'):
            r=need(w[5:])
            if r: return 'tie.Need-'+r[0]
            missing.append(w); return m.group()
        for pre in ('invariant-','decreases-'):
            if w.startswith(pre):
                k=norm(w[len(pre):])
                if k in loops: return 'tie.'+pre+loops[k]
                missing.append(w); return m.group()
        k=norm(w)
        if k in normplace: return 'tie.'+newof[normplace[k]]
        if w not in ('close','spec'): missing.append(w)
        return m.group()
    # helpers typed by a place
    helpers={}
    for m in re.finditer(r"(?m)^(?:abbrev |unfoldable |pub )*("+W+r") :\s+(?:\(c : tie\.("+W+")[^)]*\)|tie\.("+W+")) *→",body):
        h=m.group(1); pl=m.group(2) or m.group(3)
        if norm(pl) in normplace: helpers[h]=normplace[norm(pl)]
    # split declarations
    parts=re.split(r"(\n\n)",body)
    out=[]
    for part in parts:
        # the place of c in this declaration
        place=None
        m=re.search(r"(?m)^(?:abbrev |unfoldable |pub )*"+W+r" :\s*tie\.Need-("+W+")",part)
        if m:
            r=need(m.group(1))
            if r: place=r[1][0]
        else:
            m=re.search(r"(?m)^(?:abbrev |unfoldable |pub )*("+W+r") :\s+(?:\(c : tie\.|tie\.)",part)
            if m and m.group(1) in helpers: place=helpers[m.group(1)]
        if place is not None and place not in parent: print(fn,'place?',place); place=None
        aliases={'c'}
        if place:
            for m in re.finditer(r"let ("+W+r")(?: : tie\.[^=]*)? = ("+W+r")((?:\.before)*) in",part):
                if m.group(2) in aliases: aliases.add(m.group(1))
            def call(m):
                h,par,x,b,close=m.groups()
                if x not in aliases: return m.group()
                d=depth(place,helpers[h])
                if d is None: print(fn,'no way from',place,'to',helpers[h],m.group()); return m.group()
                return h+' c'+'.before'*d
            hp='@@'
            if helpers:
                hp='|'.join(sorted(map(re.escape,helpers),key=len,reverse=True))
                part=re.sub(r"(?<![\w'.-])("+hp+r") (\()?("+W+r")((?:\.before)*)(?![\w'.-])(?(2)(\)))()",lambda m: call(re.match(r"("+hp+r") (\()?("+W+r")((?:\.before)*)(\))?$",m.group())),part)
        m=re.match(r"(?s)(?:.*\n)?(?:abbrev |unfoldable |pub )*("+W+r") : tie\.("+W+r") → tie\.("+W+r")\n\1 (\w+) = \4((?:\.before)*)\s*$",part)
        if m and norm(m.group(2)) in normplace and norm(m.group(3)) in normplace:
            d=depth(normplace[norm(m.group(2))],normplace[norm(m.group(3))])
            if d is not None: part=part[:m.start(5)]+'.before'*d
            else: print(fn,'no way',m.group())
            aliases=set(); place=None if False else place
        # befores in front of a field
        part=re.sub(r"(\.before)+(?=\.(?!before)[A-Za-z_+])","",part)
        if place:
            part=re.sub(r"(let "+W+r" = )("+W+r")(\.before)+ in",lambda m: m.group(1)+m.group(2)+' in' if m.group(2) in aliases else m.group(),part)
        # arms and labels on the way to the place
        way=[]; x=place
        while x is not None: way.append(x); x=parent.get(x)
        idx={pp[0]:i for i,pp in enumerate(P)}
        subs=[]
        arms=e.get('arms') or []
        for x in way+[None]:
            for i in ([idx[x]] if x is not None else range(len(arms))):
                a=arms[i] if i<len(arms) else None
                if not a: continue
                arm,_,items=a
                for it in items:
                    f,l,pt=it[0],it[1],it[2]
                    subs.append((l,pt,arm,f))
        seen=set(); subs2=[]
        for z in subs:
            kk=(z[0],tuple(z[1]))
            if kk in seen: continue
            seen.add(kk); subs2.append(z)
        subs2.sort(key=lambda z:-len(z[1]))
        for l,pt,arm,f in subs2:
            lab=''.join(re.escape(ch) if ch not in '-_' else '[-_]' for ch in l)
            lab=re.sub(r'(?<=[A-Za-z])(\d+)$',r'[-_]?\1',lab)
            part=re.sub(r"(?<=[\w')])\."+lab+''.join(r'\.'+re.escape(x) for x in pt)+r"(?![\w'-])",'.@'+arm+'.@'+f,part)
        mine={}
        for x in way:
            o,n=P[idx[x]][2]
            if o and o not in used_args: mine.setdefault(norm(o),n)
        def field(m,part=part):
            w=m.group(1); k=norm(w)
            ks=[k]
            if w.startswith('Is'): ks.append(k[2:])
            if w.endswith('_lem'): ks.append(k[:-3])
            pre=part[:m.start()]
            if pre.endswith('tie') or pre.endswith('.args') or pre.endswith('.new') or pre.endswith('.result'): return m.group()
            for k in ks:
                for d in (mine,labels):
                    if k in d and k not in ('args','result','before'): return '.@'+d[k]
            return m.group()
        part=re.sub(r"(?<=[\w')])\.("+W+")",field,part)
        part=part.replace('.@','.')
        for _ in range(5):
            m=re.search(r"(?m)^ *let ("+W+r") = c in\n",part)
            if not m: break
            v=m.group(1)
            part=part[:m.start()]+part[m.end():]
            part=re.sub(r"(?<![\w'.-])"+re.escape(v)+r"(?=\.)","c",part)
            part=re.sub(r"(let "+W+r"(?: : [^=\n]*)? = )"+re.escape(v)+r"(?= in)",r"\1c",part)
            if re.search(r"(?<![\w'.-])"+re.escape(v)+r"(?![\w'-])",part): print(fn,'alias',v,'is used bare')
        out.append(part)
    body=''.join(out)
    body=re.sub(r"\btie\.("+W+")",tie,body)
    # a test's fact needs no turning
    def unnot(m):
        lab=re.search(r"\.if-not-([\w-]+?)(-\d+)*\.(?:true|false)\)?$",m.group())
        if lab and norm(lab.group(1)) not in ('facts','swap'): return m.group(1)
        return m.group()
    body=re.sub(r"\(not[-_](?:true|false) _ ((?:"+W+r")(?:\."+W+r")+\.(?:true|false))\)",unnot,body)
    body=re.sub(r"(?<![\w'(-])not[-_](?:true|false) _ ((?:"+W+r")(?:\."+W+r")+\.(?:true|false))(?![\w'.-])",unnot,body)
    body=re.sub(r"(?<=\()not[-_](?:true|false) _ ((?:"+W+r")(?:\."+W+r")+\.(?:true|false))(?![\w'.)-])",unnot,body)
    def lent(m):
        f=callee.get(m.group(1),'').split('::')[-1]
        ms=MUTS.get(f)
        if ms and int(m.group(2))<len(ms): return '.'+m.group(1)+'.new.'+ms[int(m.group(2))]
        return m.group()
    body=re.sub(r"\.("+W+r")\.new\.(\d)(?![\w'-])",lent,body)
    body=re.sub(r"\.pre(?![\w'-])",".requires",body)
    body=re.sub(r"(?<=\.args\.)([a-z]+(?:-[a-z]+)+)",lambda m:m.group().replace('-','_'),body)
    # the list of answers
    m=re.search(r"tie\.spec\b(.*)\Z",body,re.S)
    if m:
        txt=m.group(1)
        args=[];i=0
        while i<len(txt):
            ch=txt[i]
            if ch.isspace(): i+=1; continue
            if ch==')': break
            if ch=='(':
                d=0;j=i
                while True:
                    if txt[j]=='(': d+=1
                    if txt[j]==')':
                        d-=1
                        if d==0: break
                    j+=1
                args.append(txt[i:j+1]); i=j+1
            else:
                j=re.compile(r"[^\s()]+").match(txt,i).end(); args.append(txt[i:j]); i=j
        tail=txt[i:]
        decl={mm.group(1):mm.group(2) for mm in re.finditer(r"(?m)^(?:abbrev |unfoldable |pub )*("+W+r") :\s*tie\.Need-("+W+")",body)}
        pre=[a for a in args if a not in decl and not a.startswith('(')]
        rest=[a for a in args if a not in pre]
        N=[n for o,n in e['needs']]
        def kap(a): return bool(re.match(r"\(λ \w+ κs",a))
        def isearch(a): return bool(re.match(r"\(λ [^.]*\. search rules\)$",a))
        import functools
        @functools.lru_cache(None)
        def best(i,j):
            if i==len(rest) and j==len(N): return (0,())
            r=[]
            if i<len(rest) and isearch(rest[i]):
                c,x=best(i+1,j); r.append((c+1,x))
            if j<len(N):
                c,x=best(i,j+1); r.append((c+3,((None,N[j]),)+x))
            if i<len(rest) and j<len(N):
                a=rest[i]
                if a in decl:
                    ok=decl[a]==N[j]; cost=0
                else:
                    k=N[j].find('-requires')>=0
                    ok=N[j] not in decl.values(); cost=0 if kap(a)==k else 2
                    if isearch(a) and N[j].startswith('returns'): cost+=0.5
                if ok:
                    c,x=best(i+1,j+1); r.append((c+cost,((a,N[j]),)+x))
            if not r: return (1e9,())
            return min(r,key=lambda z:z[0])
        import sys as _s; _s.setrecursionlimit(10000)
        c,x=best(0,0)
        if c>=1e9: print(fn,'no alignment',rest,N)
        else:
            new=[]
            for a,n in x:
                if a is None: a='(λ c κs. search rules)' if '-requires' in n else '(λ c. search rules)'
                new.append(a)
            placeof={nn:pl[0] for (oo,nn),pl in zip(e['needs'],e['asked_at'])}
            if helpers:
                new2=[]
                for a,(_,n) in zip(new,x):
                    def call2(m):
                        d=depth(placeof[n],helpers[m.group(1)])
                        return m.group() if d is None else m.group(1)+' c'+'.before'*d
                    if a.startswith('('):
                        a=re.sub(r"(?<![\w'.-])("+hp+r") \(?c(?:\.before)*(?![\w'.-])\)?",lambda m: call2(m)+(')' if m.group().count(')')>m.group().count('(') else ''),a)
                    new2.append(a)
                new=new2
            if new!=rest:
                body=body[:m.start()]+'tie.spec\n    '+'\n    '.join(pre+new)+tail
            if c: print(fn,'aligned at',c,len(rest),'->',len(N))
    if missing: print(fn,'missing',missing,'needs',[n for n in e['needs']])
    open(path,'w',encoding='utf-8').write(head+sep+body)
for key,e in names.items():
    m=re.match(r"Rattle-(\w+)-proofs\.(.*)\.Lts$",key)
    if not m: continue
    fn=m.group(2)
    if only and fn not in only: continue
    path=os.path.join(crate,'proofs',*fn.split('.'),'Proof.antt')
    if not os.path.exists(path):
        continue
    try: run(fn,e,path)
    except Exception as ex: print('FAILED',fn,repr(ex))
