#!/usr/bin/env python3
"""Turns the older kit's Proof.antt of a crate into Answers.antt and Invariants.antt, for the patches that rest beside it.

usage, in crates/NAME once the crates below it prove:
    rt check --generated /tmp/names --old-names          the old and new names of each goal and step
    python3 ../../wip/18-20-answers.py . /tmp/names/names.json
    rt check                                             what is left is for a reader

It writes out helpers that spoke of a place of the walk, drops answers that the check finds alone, and says what it could not place. What it is wrong at is
listed in docs/PORT.md and shown by the check: names of steps that port.py garbled (`_lem`), goals whose functions call themselves, several `requires` with names.
"""
import sys,os,re,json,glob
crate=os.path.abspath(sys.argv[1]); names=json.load(open(sys.argv[2]))
cn=os.path.basename(crate)
KEEP_TRIVIAL=False
TYPEINV=False
MUT={}
for f in glob.glob(crate+'/../*/src/**/*.rt',recursive=True):
    for mm in re.finditer(r"fn (\w+)(?:<[^>]*>)?\(([^)]*)\)",open(f).read()):
        ps=[x.strip() for x in mm.group(2).split(',') if x.strip()]
        MUT[mm.group(1)]=[x.split(':')[0].strip() for x in ps if '&mut' in x]
ID=r"[^\W\d][\w'₀-₉-]*"
def split_args(body):
    args=[];d=0;cur=''
    for ch in body:
        if ch in '([{': d+=1
        if ch in ')]}': d-=1
        if ch.isspace() and d==0:
            if cur.strip(): args.append(cur.strip())
            cur=''
        else: cur+=ch
    if cur.strip(): args.append(cur.strip())
    return args
def items(text):
    """top-level blocks: list of (kind,name,lines)"""
    lines=text.split('\n'); out=[]; cur=None
    pend=[]
    for l in lines:
        if l.startswith('--'):
            if cur: out.append(cur); cur=None
            pend.append(l); continue
        if l.startswith('use ') or l.startswith('pub use '):
            if cur: out.append(cur); cur=None
            out.append(dict(kind='use',name='',lines=[l],com=pend)); pend=[]; continue
        if not l.strip():
            if cur: cur['lines'].append(l)
            continue
        if l[0].isspace():
            if cur is None: raise Exception('indent without item: '+l)
            cur['lines'].append(l); continue
        m=re.match(r"(?:(?:abbrev|pub|unfoldable|opaque) )*("+ID+r"|\+[\w-]+) :(?= |$)",l)
        if m:
            if cur: out.append(cur)
            cur=dict(kind='sig',name=m.group(1),lines=[l],com=pend); pend=[]
        elif cur and cur['kind']=='sig' and (l.startswith(cur['name']+' ') or l.startswith('unfolding ') or l==cur['name']+' =' or l.startswith(cur['name'])):
            cur['lines'].append(l)
        else:
            if cur: out.append(cur)
            cur=dict(kind='other',name='',lines=[l],com=pend); pend=[]
    if cur: out.append(cur)
    if pend: out.append(dict(kind='other',name='',lines=[],com=pend))
    return out
def nrm(x): return re.sub(r"[-_]","",x).lower()
class Ctx:
    def __init__(s,info):
        s.helpers={}
        s.newname={p[0]:n for p,n in zip(info['places'],info['places_by_name'])}
        s.info=info
        s.places={p[0]:p for p in info['places']}
        s.arm={p[0]:a for p,a in zip(info['places'],info['arms'])}
        s.warn=[]
    def parent(s,p): return s.places[p][1]
    def step(s,p): return s.places[p][2]
    def find(s,old):
        for p in s.places:
            if nrm(p)==nrm(old): return p
    def up(s,frm,to):
        k=0; q=frm
        while q and q!=to: q=s.parent(q); k+=1
        return None if q is None else k
CH=re.compile(r"(?<![\w'.₀-₉-])("+ID+r")((?:\."+r"(?:"+ID+r"|\d+)=?)+)(?![\w'-])")
def convert(body,var,place,ctx,arm):
    """rewrites chains from var (record at old place)"""
    alias={var:place}
    def bare(h):
        t=ctx.helpers[h]; k=ctx.up(place,t)
        if k is None: ctx.warn.append(f'{h}: {t} is not above {place}'); k=0
        return 'c'+'.before'*k
    def chain(m,alias):
        v,path=m.group(1),m.group(2)[1:].split('.')
        if v not in alias: return m.group(0)
        p=alias[v]; k=0
        while k<len(path) and path[k]=='before':
            p=ctx.parent(p) if p else None; k+=1
        rest=path[k:]
        if not rest: return ('@',p)
        def norm(x): return re.sub(r"[-_]","",re.sub(r"_lem$","",x)).lower()
        if rest[0]=='pre': rest[0]='requires'
        chainp=[]; q=place
        while q: chainp.append(q); q=ctx.parent(q)
        order=([p] if p else [])+chainp
        # arms
        for q in order:
            ar=ctx.arm.get(q)
            if ar:
                for newf,oldstep,oldpath in ar[2]:
                    if oldpath and norm(rest[0])==norm(oldstep) and rest[1:1+len(oldpath)]==list(oldpath):
                        return '.'.join(['c',ar[0],newf]+rest[1+len(oldpath):])
        rest=[x.replace('well-formed','well_formed').replace('type-inv','type_inv') for x in rest]
        if rest[0] in ('args','requires','ranges','well_formed','auto','type_inv','lifetimes','trait'): return '.'.join(['c']+rest)
        for q in order:
            o,n=ctx.step(q)
            if o and norm(rest[0])==norm(o):
                k=ctx.info['places']
                ty=[v for tl in ctx.info['typed'] for v,st in tl if st==o]
                if ty and rest[1:2]==['given'] and TYPEINV: return '.'.join(['c','type_inv',ty[0]]+rest[2:])
                if rest[1:2] in (['new'],['auto']) and len(rest)>2 and rest[2].isdigit() and ctx.places[q][3]:
                    fn=ctx.places[q][3].split('::')[-1]
                    mp=MUT.get(fn)
                    if mp and int(rest[2])<len(mp): rest[2]=mp[int(rest[2])]
                    else: ctx.warn.append('new index '+m.group(0)+' '+str(mp))
                rest[0]=n
                break
        else:
            ctx.warn.append(f'{m.group(0)}: no step {rest[0]} above {place}')
        return '.'.join(['c']+rest)
    # let X = chain.given in: written out
    while True:
        m=re.search(r"let ("+ID+r")(?: : [^=\n]+)? = ((?:"+ID+r")(?:\.[\w'-]+)*\.given) in[ \n]\s*",body)
        if not m: break
        pre,post=body[:m.start()],body[m.end():]
        body=pre+re.sub(r"(?<![\w'.₀-₉-])"+re.escape(m.group(1))+r"(?![\w'₀-₉-])",lambda _: m.group(2),post)
    # aliases: let X = chain in
    while True:
        m=None
        for mm in re.finditer(r"let ("+ID+r")(?: : [^=\n]+)? = ("+ID+r")((?:\.before)*) in[ \n]\s*",body):
            if mm.group(2) in alias: m=mm;break
        if not m: break
        p=alias[m.group(2)]
        for _ in range(m.group(3).count('.before')): p=ctx.parent(p) if p else None
        alias[m.group(1)]=p
        body=body[:m.start()]+body[m.end():]
    def sub(m):
        r=chain(m,alias)
        if isinstance(r,tuple):
            h=re.search(r"("+ID+r") $",m.string[:m.start()])
            if h and h.group(1) in ctx.helpers: return bare(h.group(1))
            ctx.warn.append('bare '+m.group(0)); return 'c'
        return r
    body=CH.sub(sub,body)
    if ctx.helpers:
        hs='|'.join(sorted(map(re.escape,ctx.helpers),key=len,reverse=True))
        al='|'.join(map(re.escape,alias))
        body=re.sub(r"(?<![\w'.₀-₉-])("+hs+r") ("+al+r")(?![\w'.₀-₉-])",lambda m: m.group(1)+' '+bare(m.group(1)),body)
    ATOM=r"(?:[\w'.₀-₉-]+|\([^()]*\))"
    def unnot(m):
        t=m.group(0)
        return m.group(1) if t.startswith('(') and t.endswith(')') else ('(' if t.startswith('(') else '')+m.group(1)+(')' if t.endswith(')') else '')
    body=re.sub(r"\(?(?<![\w'-])not-(?:true|false) "+ATOM+r" (c\.if-[\w'-]*\.(?:true|false))\)?(?![\w.])",unnot,body)
    # bare alias uses
    for a in alias:
        if a!='c':
            body=re.sub(r"(?<![\w'.₀-₉-])"+re.escape(a)+r"(?![\w'₀-₉-])",'c',body)
    return body
def trivial(b):
    b=re.sub(r'\s+',' ',b.strip())
    return b in ('search rules','omega arith','refl','grind rules','λ κs. search rules')
def do(pf):
    assert True
    fdir=os.path.dirname(pf); rel=os.path.relpath(fdir,crate+'/proofs').split('/')
    key=f"Rattle-{cn}-proofs."+'.'.join(rel)+".Lts"
    if key not in names: print('no names for',key); return
    info=names[key]; ctx=Ctx(info)
    text=open(pf).read()
    am=re.search(r"(?:^--.*\n)*^abbrev ("+ID+r") : Type 0\n\1 = (tie\."+ID+r"(?: (?:invariant|decreases)[\w-]*)*)\n\n?",text,re.M)
    if am:
        text=text[:am.start()]+re.sub(r"(?<=: )"+re.escape(am.group(1))+r"(?=\))",lambda m:am.group(2),text[am.end():])
    its=items(text)
    fin=[i for i in its if i['kind']=='sig' and re.search(r'[-_]spec$',i['name'])]
    if len(fin)!=1: print('finals',pf,len(fin)); return
    fin=fin[0]
    m=re.search(r"tie\.close\s+\(tie\.spec(.*)\)\s*$",'\n'.join(fin['lines']),re.S)
    args=split_args(m.group(1))
    finunf=[l for l in fin['lines'] if l.startswith('unfolding ')]
    nl=len(info['loops'])
    needs=info['needs']
    sig={i['name']:i for i in its if i['kind']=='sig'}
    loopargs=args[:2*nl] if nl else []
    # invariants may have fewer (for loops)
    invs=[a for a in args if a in sig and re.search(r": tie\.(invariant|decreases)",sig[a]['lines'][0])]
    rest=[a for a in args if a not in invs]
    if len(rest)!=len(needs):
        keep=[]; k=0
        for a in rest:
            if a in sig:
                mm=re.search(r"Need-("+ID+r")",sig[a]['lines'][0]); nn=mm.group(1) if mm else a
            else: nn=None
            if k<len(needs) and (nn is None or nrm(nn).endswith(nrm(needs[k][0]))): keep.append(a); k+=1
        if len(keep)!=len(needs):
            print(f'COUNT {pf}: {len(rest)} answers, {len(needs)} needs: {[n[0] for n in needs]} / {rest}')
            return
        dropped=[a for a in rest if a not in keep]
        for a in dropped:
            its=[i for i in its if i['name']!=a]
        rest=keep
    goalof={}
    for a,n,at in zip(rest,needs,info['asked_at']): goalof.setdefault(a,[]).append((n,at,None))
    for i in its:
        if i['kind']=='sig' and i is not fin and i['name'] not in goalof:
            l=' '.join(i['lines'])
            m2=re.search(r"^[^=]*?: (?:\(("+ID+r") : )?tie\.("+ID+r")",l)
            if m2 and not re.search(r"tie\.(Need-|invariant|decreases)",l[:m2.end()+2]):
                P=ctx.find(m2.group(2))
                if P: ctx.helpers[i['name']]=P
                else: print('HELPER PLACE?',pf,i['name'],m2.group(2),list(ctx.places))
    path='Rattle.'+cn+'.proofs.'+'.'.join(rel)
    uses=[]; head=[]; out=[]
    for i in its:
        if i['kind']=='use':
            l=i['lines'][0]
            if i['com']: head+=i['com']
            if re.search(r"\.Statement\.\{statement\}$",l) or re.search(r"\.Tie as tie$",l) or l.endswith('.Lts as lts') or l.endswith('.Reads as reads'): continue
            uses.append(l)
    head=head or its[0].get('com',[])
    answers=[]
    unused=set()
    for i in its:
        if i['kind']=='use' or i is fin: continue
        if i['kind']=='other' and not i['lines']: continue
        if i['name'] in invs: continue
        if i['name'] in goalof and re.search(r": (tie|lts)\.Need-",i['lines'][0]):
            for (n,at,arm) in goalof[i['name']]:
                ls=i['lines']; unf=[l for l in ls if l.startswith('unfolding ')]
                j=[k for k,l in enumerate(ls) if l.startswith(i['name']+' ') and k>0 and ' :' not in l[:len(i['name'])+3] or (k>0 and l.startswith(i['name']+' ='))]
                clauses='\n'.join(ls[j[0]:]).rstrip()
                mm=re.match(re.escape(i['name'])+r"((?: [^=\s]+)*) =\s?",clauses)
                if not mm: print('clause?',pf,i['name']); continue
                pats=mm.group(1).split(); body=clauses[mm.end():]
                if len(j)>1: ctx.warn.append('several clauses '+i['name'])
                var=pats[0] if pats else None
                extra=[p for p in pats[1:] if p!='κs']
                if re.search(r'κs',body): ctx.warn.append('κs used in '+i['name'])
                body=convert(body,var,at[0],ctx,arm) if var else body
                if not unf and trivial(body): continue
                answers.append((i['com'],n[1],unf,extra,body))
        else:
            t=re.search(r"tie\.",'\n'.join(i['lines']))
            if t and i['kind']=='sig' and i['name'] in ctx.helpers:
                P=ctx.helpers[i['name']]
                txt='\n'.join(i['lines'])
                j=txt.index('\n'+i['name']+' ')
                sg,bd=txt[:j],txt[j+1:]
                m2=re.search(r"tie\.("+ID+r")((?: invariant[\w-]*| decreases[\w-]*)*)( → tie\.("+ID+r"))?",sg)
                unf=re.findall(r"^unfolding .*$",sg,re.M)
                if m2.group(4):
                    Q=ctx.find(m2.group(4)); k=ctx.up(P,Q)
                    i['lines']=[f"abbrev {i['name']} : goal.{ctx.newname[P]} → goal.{ctx.newname[Q]}",f"{i['name']} c = c"+'.before'*(k or 0)]
                else:
                    sg=re.sub(r"tie\.("+ID+r")((?: invariant[\w-]*| decreases[\w-]*)*)",lambda m: 'goal.'+(ctx.newname.get(ctx.find(m.group(1))) or 'UNKNOWN-'+m.group(1)),sg)
                    pm=re.match(re.escape(i['name'])+r"((?: [^=\s]+)*) =",bd)
                    v=pm.group(1).split()[0] if pm.group(1) else 'c'
                    sg=convert(sg,'c',P,ctx,None)
                    hd,rs=bd[:pm.end()],bd[pm.end():]
                    rs=convert(rs,v,P,ctx,None)
                    hd=re.sub(r"(?<=\s)"+re.escape(v)+r"(?=\s)",'c',hd)
                    i['lines']=(sg+'\n'+hd+rs).split('\n')
            answers.append(('raw',i))
    for a in rest:
        if a.startswith('(λ'):
            for (n,at,arm) in goalof[a]:
                mm=re.match(r"\(λ ([^.]*)\.\s*(.*)\)$",a,re.S)
                pats=mm.group(1).split(); body=mm.group(2)
                body=convert(body,pats[0],at[0],ctx,arm)
                if trivial(body) and not finunf: continue
                answers.append(([],n[1],finunf,[p for p in pats[1:] if p!='κs'],body))
            goalof[a]=[]
    inl={}
    for a in answers:
        if a[0]=='raw' and a[1]['name'] in ctx.helpers:
            txt='\n'.join(a[1]['lines'])
            nm=a[1]['name']
            j=txt.find('\n'+nm+' c =')
            if j<0: continue
            if 'unfolding' in txt[:j]: continue
            bd=re.sub(r"\s*\n\s*"," ",txt[j+len(nm)+5:].strip())
            if re.match(r"c(\.before)*$",bd): bd='c'
            if re.match(r"[\w.'-]+$",bd): bd='@@'+bd
            inl[nm]=bd
    def inline(b):
        for _ in range(30):
            b2=b
            for nm,bd in inl.items():
                b2=re.sub(r"\((?<![\w'.-])"+re.escape(nm)+r" c(?:\.before)*\)(?=\.)",lambda m:'('+inline0(bd)+')',b2)
                b2=re.sub(r"\("+re.escape(nm)+r" c(?:\.before)*\)",lambda m:'('+inline0(bd)+')',b2)
                b2=re.sub(r"(?<![\w'.-])"+re.escape(nm)+r" c(?:\.before)*(?![\w'.])",lambda m:'('+inline0(bd)+')',b2)
            b2=re.sub(r"\(@@([\w.'₀-₉-]+)\)",r"\1",b2)
            b2=re.sub(r"\((c(?:\.[\w'₀-₉-]+)*)\)",r"\1",b2)
            m=re.search(r"let ("+ID+r")(?: : [^=\n]+)? = c(?:\.before)* in[ \n]\s*",b2)
            if m:
                b2=b2[:m.start()]+re.sub(r"(?<![\w'.₀-₉-])"+re.escape(m.group(1))+r"(?![\w'₀-₉-])",'c',b2[m.end():])
            if b2==b: return b
            b=b2
        return b
    def inline0(b): return b
    def tidyc(b):
        b=b.replace('((@@','(@@') if False else b
        b=re.sub(r"\(+@@([\w.'₀-₉-]+)\)",r"\1",b)
        return b
    ALX=re.compile(r"let ("+ID+r")(?: : [^=\n]+)? = \(*c(?:\.before)*\)* in[ \n]\s*")
    if inl:
        answers=[a if a[0]=='raw' else (a[0],a[1],a[2],a[3],inline(a[4])) for a in answers]
        for a in answers:
            if a[0]=='raw' and a[1]['name'] not in inl:
                a[1]['lines']=inline('\n'.join(a[1]['lines'])).split('\n')
        answers=[a for a in answers if not (a[0]=='raw' and a[1]['name'] in inl)]
    o=[]
    o+=head
    for u in uses: o.append(u)
    o.append(f'use {path}.Goals as goal'); o.append('')
    has=False
    for a in answers:
        if a[0]=='raw':
            o+=a[1]['com']+[l for l in a[1]['lines']]
            while o and not o[-1].strip(): o.pop()
            o.append('')
        else:
            com,n,unf,extra,body=a; has=True
            o+=com
            o.append(f'pub {n} : goal.{n}')
            o+=unf
            e=''.join(' '+x for x in extra)
            o.append(f'{n} c{e} ='+('\n' if body.startswith('\n') else ' ')+body.lstrip('\n ').rstrip() if not body.startswith(('\n','    ')) else f'{n} c{e} =\n    '+body.strip())
            o.append('')
    ansdone=(o,any(a[0]!='raw' for a in answers))
    if any(a[0]!='raw' for a in answers):
        open(fdir+'/Answers.antt','w').write('\n'.join(o).rstrip('\n')+'\n')
    # invariants
    if invs:
        iv=[head[0] if head else '']
        o=list(head)+[u for u in uses]+[f'use {path}.Given as goal','']
        invtext=' '.join(' '.join(sig[n]['lines'][1:]) for n in invs)
        shared=[]
        more=True
        while more:
            more=False
            for a in answers:
                if a[0]=='raw' and not a[1]['name'] and a[1]['lines']:
                    rm=re.match(r"record ("+ID+r")",a[1]['lines'][0])
                    if rm: a[1]['name']=rm.group(1)
                if a[0]=='raw' and a[1]['name'] and a[1] not in shared and re.search(r"(?<![\w'.-])"+re.escape(a[1]['name'])+r"(?![\w'-])",invtext):
                    shared.append(a[1]); invtext+=' '.join(a[1]['lines']); more=True
        shared=[a[1] for a in answers if a[0]=='raw' and a[1] in shared]
        sharedlines=[]
        for h in shared:
            ls=list(h['lines'])
            if ls[0].startswith('record '): ls=['pub '+ls[0]]+[re.sub(r"^  (?!pub )(?=\S)","  pub ",l) for l in ls[1:]]
            elif not re.match(r"(abbrev |unfoldable )?pub ",ls[0]): ls[0]=re.sub(r"^(abbrev |unfoldable )?",lambda m:(m.group(1) or '')+'pub ',ls[0])
            while ls and not ls[-1].strip(): ls.pop()
            sharedlines+=h['com']+ls+['']
        o+=sharedlines
        if shared and ansdone[1]:
            t=open(fdir+'/Answers.antt').read()
            for h in shared:
                ls=list(h['lines'])
                while ls and not ls[-1].strip(): ls.pop()
                df='\n'.join(h['com']+ls)+'\n\n'
                if df in t: t=t.replace(df,'',1)
                else: ctx.warn.append('shared helper not taken out: '+h['name'])
            t=t.replace(f'use {path}.Goals as goal',f'use {path}.Invariants.'+'{'+', '.join(h['name'] for h in shared)+'}'+f'\nuse {path}.Goals as goal',1)
            open(fdir+'/Answers.antt','w').write(t)
        loops=info['loops']; changed=info['changed']
        # pair by name: invariant-X, decreases-X
        for nm in invs:
            i=sig[nm]
            typ=re.search(r": tie\.(invariant|decreases)(-[\w'-]*)?",i['lines'][0])
            kind,suffix=typ.group(1),(typ.group(2) or '')[1:]
            cand=[k for k,(ls,vs) in enumerate(loops) if ls[0]==suffix or ls[0].replace('_','-')==suffix]
            if not cand:
                cand=[k for k in range(len(loops))] if len(loops)==1 else []
            if not cand: print('LOOP?',pf,nm,suffix,loops); continue
            ls,vs=loops[cand[0]]; ch=changed[cand[0]]
            cl='\n'.join(i['lines'][1:])
            k=cl.find(nm+' ')
            unf=[l for l in i['lines'] if l.startswith('unfolding ')]
            mm=re.match(re.escape(nm)+r"((?: [^=\s]+)*) =\s?",cl[k:])
            pats=mm.group(1).split(); body=cl[k+mm.end():].rstrip()
            want=[f'l.initial.{v}' if c else f'l.{v}' for v,c in zip(vs,ch)]+[f'l.{v}' for v,c in zip(vs,ch) if c]
            if len(pats)!=len(want): print('PATS',pf,nm,pats,want); 
            for p,w in zip(pats,want):
                body=re.sub(r"(?<![\w'.₀-₉-])"+re.escape(p)+r"(?![\w'₀-₉-])(?! = )",w,body)
            new=f'{kind}-{ls[1]}'
            o+=i['com']+[f'abbrev pub {new} : goal.{new}']+unf+[f'{new} l = '+body.strip(),'']
        open(fdir+'/Invariants.antt','w').write('\n'.join(o).rstrip('\n')+'\n')
    os.remove(pf)
    if ctx.warn:
        print('WARN',os.path.relpath(pf,crate)); [print('    ',w) for w in ctx.warn]
only=[a for a in sys.argv[3:]]
for pf in sorted(glob.glob(crate+'/proofs/**/Proof.antt',recursive=True)):
    if only and not any(x in pf for x in only): continue
    try: do(pf)
    except Exception as e: print('EXC',pf,repr(e))
