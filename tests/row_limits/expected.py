# Independent values of the cases, from the letter matrices at bits.
import struct
M={0:[[1,0],[0,1]],1:[[0,1],[1,0]],3:[[1,0],[0,-1]]}
P=dict(M); P[2]=[[0,-1j],[1j,0]]
D=dict(M); D[2]=[[0,1],[-1,0]]
def mask(p): return sum(1<<s for s,x in p.items() if x in(1,2))
def at(T,p,n,r,c):
    f=1
    for s in range(n): f=f*T[p.get(s,0)][(r>>s)&1][(c>>s)&1]
    return f
def row(H,N,n,rw):
    d=1<<n; k,l=divmod(rw,d)
    com={}; noi={}
    def add(t,c,v): t[c]=t.get(c,0)+v
    for p,h in H:
        m=mask(p); a=k^m; b=l^m
        add(com,a*d+l,-1j*h*at(P,p,n,k,a)); add(com,k*d+b,1j*h*at(P,p,n,b,l))
    for L,R,v in N:
        mL,mR=mask(L),mask(R)
        add(noi,(k^mL)*d+(l^mR),v*at(D,L,n,k,k^mL)*at(D,R,n,l,l^mR))
        # R^T L at (x, x^mL^mR): sum over y of R[y][x] L[y][..]
        def rl(x,z):
            y=x^mR
            return at(D,R,n,y,x)*at(D,L,n,y,z)
        a=k^mL^mR; b=l^mL^mR
        add(noi,a*d+l,-0.5*v*rl(k,a)); add(noi,k*d+b,-0.5*v*rl(b,l))
    com={c:v for c,v in com.items() if v!=0}
    for c,v in noi.items(): com[c]=com.get(c,0)+v
    return [(c,com[c].real if True else 0,complex(com[c]).imag) for c in sorted(com)]
PR=1000000007
def s(xs):
    t=0
    for x in xs: t=(t%PR*31+x%PR)%PR
    return t
def bits(x):
    return 0 if x==0 else struct.unpack('<Q',struct.pack('<d',x))[0]
def w(x):
    assert x==int(x) and abs(x)<1000; return str(int(x))
out=[]
def count(name,e):
    t=f"{name}: count {len(e)} sums {s([c for c,_,_ in e])} {s([bits(float(x)) for _,x,_ in e])} {s([bits(float(y)) for _,_,y in e])}"
    for c,x,y in e[:3]: t+=f"; {c} {w(x)} {w(y)}"
    out.append(t+"; rest ok")
def refused(name,k,site=None):
    out.append(f"{name}: refused {k}"+("" if site is None else f" site {site}")+"; rest ok")
def letter(seed,st):
    if (seed>>(st%8))%2==1: return 1+st%2
    return 3 if st%3==0 else 0
def prod(seed): return {st:letter(seed,st) for st in range(31) if letter(seed,st)}
WH=[({0:3},3.0)]; WN=[({0:1},{0:1},2+0j)]
FH=[(prod(i+1),float(i+1)) for i in range(64)]
FN=[(prod(255-2*i),prod(i+1),complex(2.0*(i+1),256-2.0*(i+1))) for i in range(64)]
count("no spins, row 0",row([],[],0,0)); refused("no spins, row 1",9); refused("32 spins",7)
count("worked, row 0",row(WH,WN,1,0)); count("worked, row 1",row(WH,WN,1,1)); refused("worked, row 4",9); refused("worked, row 0, one place",10)
refused("site 3 of 3 spins",8,3); count("site 3 of 4 spins",row([({3:1},5.0)],[],4,0))
refused("site 30 of 30 spins",8,30); count("site 30 of 31 spins",row([({30:1},5.0)],[],31,0))
refused("noise on site 3 of 3 spins",8,3); count("noise on site 3 of 4 spins",row([],[({0:1},{3:1},6+0j)],4,0))
for rw in (0,2**62-1):
    e=row(FH,FN,31,rw)
    count(f"full, row {rw}, all places",e); count(f"full, row {rw}, exact places",e)
    for x in ("place","column","real part","imaginary part"): refused(f"full, row {rw}, one {x} less",10)
refused("full, row past the last",9)
top=[max(p) for p,_ in FH if max(p)>=30]
refused("full, 30 spins",8,top[0] if top else max(max(max(a),max(b)) for a,b,_ in FN))
print("\n".join(out))
