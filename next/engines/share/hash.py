# how many classes of cells a signature does not tell apart
import random
def cover(plans):
    cells=[0]*4096
    for r,(p,q,k) in enumerate(plans):
        for c in range(p,q,k): cells[c]|=1<<r
    return cells
def test(name,plans):
    cells=cover(plans); n=len(set(cells)); out=[]
    for hn,h in [("x^3",lambda r:(r+601)**3),("x^5 mod 2^32",lambda r:((r+601)**5)%2**32),("x^5>>16",lambda r:(((r+601)**5)>>16)%2**32),("x^6 mod 2^64>>20",lambda r:(((r+601)**6)%2**64>>20)%2**32),("x*2654435761 mod 2^32",lambda r:(r+1)*2654435761%2**32),("(x*2654435761 mod 2^32)^3>>32",lambda r:(((r+1)*2654435761%2**32)**2>>16)%2**32)]:
        hs=[h(r) for r in range(len(plans))]; sig=[0]*4096
        for r,(p,q,k) in enumerate(plans):
            for c in range(p,q,k): sig[c]^=hs[r]
        out.append((hn,n-len(set(sig))))
    print(name,"classes",n,out)
test("every 2nd",[(r,4096-r,2) for r in range(1024)])
test("every 3rd",[(r,4096-r,3) for r in range(1024)])
test("nested",[(r,4096-r,1) for r in range(1024)])
random.seed(5)
for i in range(3): test("random %d"%i,[(lambda p:(p,random.randint(p+1,4096),random.choice([1,2,2,3,5,7,16])))(random.randint(0,4000)) for _ in range(1024)])
test("pairs",[(2*r,2*r+2,1) for r in range(1024)])
test("slide",[(r,r+3000,2) for r in range(1024)])
