"""How the pages of the scripts beside this one look: the frame of a page, its style and its script."""

from bits import FILLS, shown

BY_EDS = '<i class="by eds">eds</i>'
BY_SHEET = '<i class="by sheet">sheet</i>'
BY_SCRIPT = '<i class="by sheet">script</i>'
BY_INSIDE = '<i class="by inside">inside</i>'
CHUNK = 200  # rows of a table of steps
KIND_RULES = "".join(f"rect.{kind}{{fill:{fill}}}" for kind, fill in FILLS.items())
STYLE = """
:root{--ink:#1c2733;--soft:#52606d;--line:#c9d2dc;--paper:#fff;--ground:#f4f6f9;--link:#0b4f9e;--good:#0d6235;--bad:#a11a1a}
*{box-sizing:border-box}
html{scroll-padding-top:1rem}
body{margin:0;font:16px/1.5 "Helvetica Neue",Helvetica,Arial,"Liberation Sans",sans-serif;color:var(--ink);background:var(--ground)}
a{color:var(--link)}
a:focus-visible,input:focus-visible,button:focus-visible,summary:focus-visible,[tabindex]:focus-visible{outline:3px solid #d97706;outline-offset:2px}
.skip{position:absolute;left:-999px}
.skip:focus{left:1rem;top:.5rem;background:var(--paper);padding:.5rem 1rem;z-index:2}
header{background:var(--paper);border-bottom:1px solid var(--line);padding:1.25rem 1.5rem}
h1{font-size:1.7rem;line-height:1.2;margin:0 0 .6rem;overflow-wrap:anywhere}
h2{font-size:1.35rem;margin:0}
h3{font-size:1.2rem;margin:0;overflow-wrap:anywhere}
h3 small,h2 small{font-size:.8rem;font-weight:normal;color:var(--soft);margin-left:.4rem}
h4{font-size:1rem;margin:1.25rem 0 .4rem}
h5{font:600 .95rem/1.4 ui-monospace,"DejaVu Sans Mono",Menlo,Consolas,monospace;margin:1rem 0 .3rem;overflow-wrap:anywhere}
p{margin:.4rem 0}
.verdict{display:flex;flex-wrap:wrap;gap:.3rem .8rem;align-items:baseline;margin:.3rem 0}
.verdict b{padding:.1rem .6rem;border-radius:4px;color:#fff;background:var(--bad)}
.verdict b.good{background:var(--good)}
code,pre{font-family:ui-monospace,"DejaVu Sans Mono",Menlo,Consolas,monospace;font-size:.87rem}
code{overflow-wrap:anywhere}
.legend,.place,.told{color:var(--soft);font-size:.9rem}
.told{font-style:italic}
p.told{max-width:70ch}
td .told{display:block}
.place{margin:.1rem 0 .5rem;overflow-wrap:anywhere}
.by{display:inline-block;font:normal 600 .68rem/1.35 sans-serif;letter-spacing:.02em;padding:0 .35em;border-radius:3px;vertical-align:.1em;white-space:nowrap}
.by.eds{background:#0d6235;color:#fff}
.by.sheet{border:1px dashed #52606d;color:#3d4955;background:#fff}
.by.inside{border:1px dashed #7a3e9d;color:#63307f;background:#fff}
.frame{display:grid;grid-template-columns:16rem minmax(0,1fr);gap:1.5rem;max-width:80rem;margin:0 auto;padding:1.25rem 1.5rem}
.frame.plain{grid-template-columns:minmax(0,1fr)}
nav{position:sticky;top:0;max-height:100vh;overflow:auto;padding:.5rem .25rem 1rem;font-size:.92rem;align-self:start}
nav h2{font-size:1rem;margin:.9rem 0 .2rem;overflow-wrap:anywhere}
nav h3{font-size:.8rem;color:var(--soft);margin:.6rem 0 .1rem;font-weight:600}
nav ul{list-style:none;margin:0;padding:0}
nav li{overflow-wrap:anywhere;padding:.08rem 0}
nav summary{font-weight:600;cursor:pointer;padding:.3rem 0}
.search label{display:block;font-weight:600;font-size:.9rem}
.search input{width:100%;font:inherit;padding:.4rem .6rem;border:1px solid #6b7885;border-radius:6px;background:#fff;color:inherit}
.search output{display:block;min-height:1.4em;font-size:.85rem;color:var(--soft)}
.item,.package{background:var(--paper);border:1px solid var(--line);border-radius:8px;padding:1rem 1.25rem;margin:0 0 1rem}
.item{content-visibility:auto;contain-intrinsic-size:auto 260px}
.small{display:grid;grid-template-columns:repeat(auto-fill,minmax(23rem,1fr));gap:1rem;margin:0 0 1rem}
.small .item{margin:0;padding:.75rem 1rem;contain-intrinsic-size:auto 150px}
.small .facts div{grid-template-columns:5rem minmax(0,1fr)}
.package{background:none;border:0;padding:.5rem 0 0;margin-bottom:.75rem}
.item:target{border-color:#d97706;box-shadow:0 0 0 2px #d97706}
b:target,h5:target{background:#fff1d6}
.facts{margin:.5rem 0;display:grid;gap:.15rem}
.facts div{display:grid;grid-template-columns:8rem minmax(0,1fr);gap:.75rem}
.facts dt{color:var(--soft)}
.facts dd{margin:0;overflow-wrap:anywhere}
.wide,.chunk{overflow-x:auto;background:linear-gradient(90deg,var(--under) 40%,transparent) left top/2.2rem calc(100% + 2px) no-repeat local,linear-gradient(270deg,var(--under) 40%,transparent) right top/2.2rem calc(100% + 2px) no-repeat local,linear-gradient(90deg,#1c273330,transparent) left/.7rem 100% no-repeat scroll,linear-gradient(270deg,#1c273330,transparent) right/.7rem 100% no-repeat scroll}
.wide{--under:var(--paper);margin:.4rem 0}
.chunk,.plain .wide{--under:var(--ground)}
table{border-collapse:collapse;font-size:.92rem}
th,td{text-align:left;padding:.28rem .8rem .28rem 0;border-bottom:1px solid #e3e8ee;vertical-align:top}
th{font-weight:600;color:#3d4955;white-space:nowrap;border-bottom-color:var(--line)}
.parts td:nth-child(-n+3),.parts th:nth-child(-n+3){text-align:right;font-variant-numeric:tabular-nums}
ul{margin:.3rem 0;padding-left:1.2rem}
.tree,.tree ul{list-style:none;padding-left:0}
.tree ul{padding-left:1.1rem;margin-left:.35rem;border-left:1px solid #8d99a6}
.tree ul>li{position:relative}
.tree ul>li::before{content:"";position:absolute;left:-1.1rem;top:.75em;width:.85rem;border-top:1px solid #8d99a6}
.tree li{padding:.12rem 0}
.map{margin-top:.8rem}
.note{background:#fff6e3;border-left:4px solid #d97706;padding:.4rem .7rem}
pre{margin:.3rem 0 .6rem;padding:.6rem .8rem;background:var(--ground);border-radius:6px;white-space:pre-wrap;overflow-wrap:anywhere;line-height:1.45}
.source{white-space:pre-wrap}
.source .line{display:block;padding-left:var(--gutter);text-indent:calc(-1*var(--gutter))}
mark{background:#ffd9d9;color:inherit}
.bits svg{display:block;width:100%;min-width:620px;max-width:760px;height:auto}
.bits text{font:12px "Helvetica Neue",Helvetica,Arial,"Liberation Sans",sans-serif;text-anchor:middle;fill:#16202b}
.bits text.first{font-size:9.5px;text-anchor:start;fill:#36434f}
.bits text.size{font-size:11px;fill:#36434f}
.bits text.again{font-size:11px;fill:#52606d}
.bits text.key{font-weight:600;font-size:11px}
text.ruler{font:9px "Helvetica Neue",Helvetica,Arial,"Liberation Sans",sans-serif;text-anchor:middle;fill:#52606d}
.bits text.gutter{font-size:10.5px;text-anchor:end;fill:#52606d}
.bits text.pause{font-size:11px;fill:#52606d}
.bits rect{stroke:#445566;stroke-width:1}
.bits rect.open{stroke-dasharray:4 3}
.bits .octet{stroke:#445566;stroke-width:1}
.graph svg{display:block;max-width:100%;height:auto}
[hidden]{display:none!important}
@media (max-width:56rem){
th,td{padding-right:.55rem}
td .told,.says{display:block;min-width:12rem}
.frame{grid-template-columns:minmax(0,1fr);padding:1rem .75rem;gap:.5rem}
header{padding:1rem .9rem}
nav{position:static;max-height:none;overflow:visible;padding:0}
nav details[open]{max-height:60vh;overflow:auto}
.item{padding:.85rem .8rem}
.small{grid-template-columns:minmax(0,1fr)}
.facts div{grid-template-columns:6rem minmax(0,1fr)}
h1{font-size:1.4rem}
}
@media print{
body{background:#fff;font-size:11pt}
nav,.skip{display:none}
.frame{display:block;padding:0;max-width:none}
.item{content-visibility:visible;border:0;border-top:1px solid #999;border-radius:0;padding:.6rem 0}
header{padding:0 0 .6rem}
figure,tr,pre,.bits,.graph{break-inside:avoid}
h2,h3,h4,h5{break-after:avoid}
a{color:inherit;text-decoration:none}
.wide,.chunk{overflow:visible;background:none}
.bits svg{min-width:0}
}
"""
# On large pages what stands in a section is kept as text until it comes near to being seen, so that the page opens at once.
LAZY = """
(function(){
function fill(it){
var kept=it.querySelector('script[type="text/plain"]');if(!kept)return;
var made=document.createElement('div');made.innerHTML=kept.textContent;kept.replaceWith(made);
}
var all=[].slice.call(document.querySelectorAll('.lazy'));
var near=new IntersectionObserver(function(found){found.forEach(function(it){if(it.isIntersecting){near.unobserve(it.target);fill(it.target);}});},{rootMargin:'900px'});
all.forEach(function(it){near.observe(it);});
window.addEventListener('beforeprint',function(){all.forEach(fill);});
window.addEventListener('hashchange',function(){
var step=/^#step:(\\d+)$/.exec(location.hash),at=step&&document.querySelector('.lazy[data-first="'+(Math.floor((step[1]-1)/CHUNK)*CHUNK+1)+'"]');
if(at){fill(at);document.getElementById('step:'+step[1]).scrollIntoView({block:'center'});}
});
})();
"""
SEARCH = """
(function(){
var box=document.getElementById('search');if(!box)return;
document.querySelector('.search').hidden=false;
var side=document.getElementById('names');
if(window.matchMedia('(max-width:56rem)').matches)side.open=false;
var items=null,said=document.getElementById('said'),wait=0;
function read(){
items=[].map.call(document.querySelectorAll('main .item'),function(it){var kept=it.querySelector('script[type="text/plain"]'),text=it.textContent;
if(kept)text=text.replace(/<[^>]*>/g,' ').replace(/&lt;/g,'<').replace(/&gt;/g,'>').replace(/&quot;/g,'"').replace(/&#x27;/g,"'").replace(/&amp;/g,'&');
return {at:it,text:text.toLowerCase(),links:[]};});
var by={};items.forEach(function(it){by[it.at.id]=it;});
[].forEach.call(side.querySelectorAll('li a'),function(it){var found=by[it.getAttribute('href').slice(1)];if(found)found.links.push(it.parentNode);});
}
function look(){
if(!items)read();
var text=box.value.trim().toLowerCase(),many=0;
items.forEach(function(it){
var has=!text||it.text.indexOf(text)>=0;many+=has?1:0;
if(it.at.hidden===has)it.at.hidden=!has;
it.links.forEach(function(each){each.hidden=!has;});
});
said.textContent=text?many+' of '+items.length+' have it':'';
}
box.addEventListener('input',function(){clearTimeout(wait);wait=setTimeout(look,80);});
window.addEventListener('hashchange',function(){
var found=document.getElementById(decodeURIComponent(location.hash.slice(1)));
if(found&&found.closest('[hidden]')){box.value='';look();found.scrollIntoView();}
});
})();
"""
LEGEND = f'''<p class="legend">Marks: {BY_EDS} is what <code>eds</code> reports, which is proved;
{BY_SHEET} is what this page reads out of the sheet itself, which is tested.</p>'''
RUN_LEGEND = f'''<p class="legend">Marks: {BY_EDS} is what <code>eds run</code> reports, which is proved; {BY_SCRIPT} is a line of the script;
{BY_INSIDE} is what goes on within: wires, timers and states, told by bench/model, a second reading of the rules, whose whole report
of this run is that of <code>eds</code>, line by line.</p>'''
RUN_STYLE = """
.tools{display:flex;flex-wrap:wrap;gap:.5rem;align-items:center;margin:0 0 .6rem}
.tools button,.tools select,.tools input{font:inherit;padding:.3rem .7rem;border:1px solid #6b7885;border-radius:6px;background:#fff;color:inherit}
.tools button{cursor:pointer;min-width:2.4rem}
.tools input{width:11rem}
.tools label{display:inline-flex;gap:.35rem;align-items:center}
.view{position:relative;min-height:12rem;max-height:min(72vh,46rem);overflow:auto;background:#fff;border:1px solid var(--line);border-radius:8px}
.view .tall{position:relative}
.view svg{position:sticky;left:0;display:block}
.view .lanes{position:sticky;top:0;z-index:1;height:44px;background:#fff;border-bottom:1px solid var(--line)}
.view .lanes span{position:absolute;top:5px;transform:translateX(-50%);font-weight:600;font-size:.86rem;line-height:1.2;text-align:center;max-width:9.2rem;overflow-wrap:anywhere;max-height:2.5em;overflow:hidden}
.view .drawing{position:absolute;left:0}
.view text{font:12px "Helvetica Neue",Helvetica,Arial,"Liberation Sans",sans-serif;fill:#16202b}
.view text.time{fill:#52606d;font-size:11px;text-anchor:end}
.view .life{stroke:#9aa6b2;stroke-width:1}
.view .arrow{stroke-width:1.6;fill:none}
.view .k0{stroke:#0b4f9e}.view .k1{stroke:#0d6235}.view .k2{stroke:#7a3e9d}.view .k5,.view .k6{stroke:#a11a1a}
.view text.k0{fill:#0b4f9e;stroke:none}.view text.k1{fill:#0d6235;stroke:none}.view text.k2{fill:#63307f;stroke:none}
.view text.k5,.view text.k6{fill:#a11a1a;stroke:none;font-weight:600}
.view text.k3,.view text.k7{fill:#52606d;stroke:none}
.view .found{fill:#fff1d6}
.view text.mid{text-anchor:middle;paint-order:stroke;stroke:#fff;stroke-width:3px;stroke-linejoin:round}
.view text.side{paint-order:stroke;stroke:#fff;stroke-width:3px;stroke-linejoin:round}
.view text.mid.k0,.view text.mid.k1,.view text.mid.k2,.view text.k5,.view text.k6,.view text.k3,.view text.k4,.view text.k7{stroke:#fff}
.now{min-height:1.5em;font-size:.9rem;color:var(--soft);overflow-wrap:anywhere}
.chunk{content-visibility:auto}
table.steps{table-layout:fixed;width:100%;min-width:44rem}
.steps col:nth-child(1){width:4rem}.steps col:nth-child(2){width:9.5rem}.steps col:nth-child(3){width:6.5rem}.steps col:nth-child(4){width:13rem}.steps col:nth-child(6){width:4.5rem}
.steps td{overflow-wrap:anywhere}
.steps td:nth-child(-n+2),.steps th:nth-child(-n+2){text-align:right;font-variant-numeric:tabular-nums}
.steps tr:target{background:#fff1d6}
main>h2{margin:1.6rem 0 .5rem}main>h3{margin:1rem 0 .3rem}
.wires summary{font-weight:600;cursor:pointer}
@media (max-width:56rem){table.steps{min-width:52rem}.steps col:nth-child(1){width:3rem}.steps col:nth-child(4){width:11rem}.tools input{width:8rem}}
@media print{.tools,.now{display:none}.view{max-height:none;overflow:visible;border:0}.view.empty{display:none}.chunk{content-visibility:visible}table.steps{min-width:0}}
"""
RUN_SCRIPT = r"""
(function(){
var data=JSON.parse(document.getElementById('data').textContent),steps=data.steps,lanes=data.lanes,many=steps.length;
var view=document.getElementById('view'),tall=document.getElementById('tall'),drawing=document.getElementById('drawing'),heads=document.getElementById('lanes');
var mode=document.getElementById('mode'),find=document.getElementById('find'),said=document.getElementById('now');
document.getElementById('tools').hidden=false;
var COLORS=['#9ec5f4','#f6c98a','#a8dcb4','#d6b8f0','#f4aebf','#c9cf86','#9fdbe0','#d8c3ad'],HEAD=0,BAR=44,MOST=3e6;
var zoom=26,tops=new Float64Array(many+1),span=many?Math.max(1,steps[many-1][0]-steps[0][0]):1,hits=[],hit=-1,printing=false;
var gutter=96,lane=150,width=0;
function esc(it){return String(it).replace(/[&<>"]/g,function(c){return {'&':'&amp;','<':'&lt;','>':'&gt;','"':'&quot;'}[c];});}
function time(ns){var u=[[1e9,'s'],[1e6,'ms'],[1e3,'\u00b5s']];for(var i=0;i<3;i++)if(ns>=u[i][0])return String(+(ns/u[i][0]).toPrecision(12))+' '+u[i][1];return ns+' ns';}
var changes=lanes.map(function(_,at){return data.machines[at].map(function(it){return {name:it[0],states:it[1],at:[-1],to:[it[2]]};});});
steps.forEach(function(it,at){if(it[1]===4&&changes[it[2]]&&changes[it[2]][it[5]]){var c=changes[it[2]][it[5]];c.at.push(at);c.to.push(it[6]);}});
function place(){
var y=HEAD+6;
if(mode.value==='time'){
var scale=zoom/26*Math.min(MOST,many*26)/span,least=Math.min(3,zoom/3),base=many?steps[0][0]:0;
for(var i=0;i<many;i++){var to=HEAD+6+(steps[i][0]-base)*scale;y=i?Math.max(tops[i-1]+least,to):to;tops[i]=y;}
tops[many]=y+30;
}else{for(var k=0;k<=many;k++)tops[k]=y+k*zoom;}
}
function measure(){
var room=view.clientWidth-2;gutter=room<600?64:96;var each=(room-gutter-24)/lanes.length;
lane=Math.max(150,Math.min(320,each));width=Math.max(room,gutter+lane*lanes.length+24);
var out='';lanes.forEach(function(it,at){out+='<span style="left:'+x(at)+'px">'+esc(it)+'</span>';});
heads.innerHTML=out;heads.style.width=width+'px';
}
function x(at){return gutter+lane*(at+.5);}
function size(){place();tall.style.height=Math.ceil(tops[many]+30)+'px';tall.style.width=width+'px';}
function first(y){var a=0,b=many;while(a<b){var m=(a+b)>>1;if(tops[m]<y)a=m+1;else b=m;}return a;}
function cut(text,room){var n=Math.max(1,Math.floor(room/6.3));return text.length>n?text.slice(0,Math.max(1,n-1))+'\u2026':text;}
function bars(from,to,low,high){
var out='';
changes.forEach(function(machines,at){machines.forEach(function(m,k){
var left=x(at)-4*machines.length+8*k,a=0,b=m.at.length;
while(a<b){var mid=(a+b)>>1;if(m.at[mid]<from)a=mid+1;else b=mid;}
var prior=Math.max(0,a-1),top=low,last=null;
for(var i=prior;i<m.at.length;i++){
var begin=m.at[i]<0?HEAD:tops[m.at[i]]+zoomed()/2,end=i+1<m.at.length?tops[m.at[i+1]]+zoomed()/2:tops[many];
if(begin>high)break;
begin=Math.max(begin,low);end=Math.min(end,high);
if(end-begin<.4||last!==null&&end-last<1)continue;
last=end;
out+='<rect x="'+left+'" y="'+(begin-low)+'" width="7" height="'+(end-begin)+'" fill="'+COLORS[m.to[i]%8]+'"><title>'+esc(m.name+': '+m.states[m.to[i]])+'</title></rect>';
}});});
return out;
}
function zoomed(){return mode.value==='time'?0:zoom;}
function draw(){
var low=printing?HEAD:Math.max(0,view.scrollTop),high=printing?tops[many]+20:low+view.clientHeight-BAR,tallness=high-low;
var from=Math.max(0,first(low)-1),to=Math.min(many,first(high)+1),out='',half=zoomed()/2,before=-1e9,beforeTime=null,lastLabel=-1e9;
out+=bars(from,to,low,high);
lanes.forEach(function(_,at){out+='<path class="life" d="M'+x(at)+' 0V'+Math.min(tallness,tops[many]-low)+'"/>';});
for(var i=from;i<to;i++){
var it=steps[i],y=tops[i]-low+half;
if(y-before<1&&to-from>1500&&it[1]<5)continue;
before=y;
var gap=(i+1<many?tops[i+1]-tops[i]:99),roomy=y-lastLabel>=12.5&&(mode.value!=='time'||zoom>6)&&(zoom>=12||mode.value==='time'),found=hits.length&&hits.indexOf(i)>=0;
out+='<g data-step="'+i+'"><title>'+esc(time(it[0])+' '+it[4])+'</title>';
if(found||i===hit)out+='<rect class="found" x="'+gutter+'" y="'+(y-11)+'" width="'+(width-gutter)+'" height="15"/>';
if(it[0]!==beforeTime&&roomy){out+='<text class="time" x="'+(gutter-8)+'" y="'+(y+4)+'">'+time(it[0])+'</text>';}
var a=x(it[2]),b=x(it[3]),kind=' k'+it[1];
if(a!==b){
var way=b>a?1:-1,tip=b-way*1,from_=a;
out+='<path class="arrow'+kind+'" '+(it[1]===2?'stroke-dasharray="6 3" ':'')+'d="M'+from_+' '+y+'H'+tip+(roomy?'M'+(tip-way*7)+' '+(y-4)+'L'+tip+' '+y+'L'+(tip-way*7)+' '+(y+4):'')+'"/>';
if(it[1]===6)out+='<path class="arrow k6" d="M'+(tip-way*12-4)+' '+(y-5)+'l8 10m0 -10l-8 10"/>';
if(roomy)out+='<text class="mid'+kind+'" x="'+(a+b)/2+'" y="'+(y-4)+'">'+esc(cut(it[4],Math.abs(b-a)-16))+'</text>';
}else if(it[1]===7){
out+='<path d="M'+gutter+' '+y+'H'+(width-8)+'" stroke="#c9d2dc" stroke-dasharray="2 4"/>';
if(roomy)out+='<text class="side k7" x="'+(gutter+4)+'" y="'+(y+4)+'">'+esc(cut(it[4],lane/2-10))+'</text>';
}else if(it[1]===2){
out+='<path class="arrow k2" stroke-dasharray="6 3" d="M'+a+' '+(y-4)+'h22v8h-18"/>';
if(roomy)out+='<text class="side k2" x="'+(a+28)+'" y="'+(y+4)+'">'+esc(cut(it[4],lane/2))+'</text>';
}else{
var off=4*(changes[it[2]]||[]).length+6;
if(it[1]===3)out+='<circle cx="'+a+'" cy="'+y+'" r="5" fill="#fff" stroke="#52606d" stroke-width="1.5"/><path d="M'+a+' '+(y-3)+'V'+y+'h2.5" fill="none" stroke="#52606d"/>';
if(it[1]===4)out+='<circle cx="'+a+'" cy="'+y+'" r="3.5" fill="'+COLORS[it[6]%8]+'" stroke="#1c2733"/>';
if(it[1]===5)out+='<path d="M'+(a-6)+' '+(y-6)+'l12 12m0 -12l-12 12" class="arrow k5"/>';
if(roomy)out+='<text class="side'+kind+'" x="'+(a+off)+'" y="'+(y+4)+'">'+esc(cut(it[4],(it[2]===lanes.length-1?lane/2+10:lane-20)-off))+'</text>';
}
if(roomy){lastLabel=y;beforeTime=it[0];}
out+='</g>';
}
drawing.innerHTML='<svg width="'+width+'" height="'+tallness+'" role="img" aria-label="The run as a drawing. The table below says the same.">'+out+'</svg>';
drawing.style.top=low+'px';
}
var asked=false;
function redraw(){if(!asked){asked=true;requestAnimationFrame(function(){asked=false;draw();});}}
function anchor(change,where){
var at=where===undefined?view.clientHeight/2:where,near=Math.max(0,Math.min(many-1,first(view.scrollTop+at)-1)),off=(many?tops[near]:0)-view.scrollTop;
change();size();if(many)view.scrollTop=Math.max(0,tops[near]-off);redraw();
}
function by(factor,where){anchor(function(){zoom=Math.max(.02,Math.min(mode.value==='time'?26e4:80,zoom*factor));while(mode.value!=='time'&&many*zoom>MOST*4)zoom/=1.2;},where);}
function fit(){anchor(function(){zoom=mode.value==='time'?26*(most()-BAR-40)/Math.min(MOST,many*26):Math.max(.02,(most()-BAR-30)/Math.max(1,many));zoom=Math.min(zoom,mode.value==='time'?26e4:40);});view.scrollTop=0;redraw();}
function most(){return parseFloat(getComputedStyle(view).maxHeight)||view.clientHeight;}
function on(id,what){document.getElementById(id).addEventListener('click',what);}
on('in',function(){by(1.5);});on('out',function(){by(1/1.5);});on('fit',fit);on('each',function(){anchor(function(){zoom=26;});});
mode.addEventListener('change',function(){anchor(function(){zoom=26;});});
view.addEventListener('wheel',function(it){if(it.ctrlKey||it.metaKey){it.preventDefault();by(it.deltaY<0?1.2:1/1.2,it.clientY-view.getBoundingClientRect().top);}},{passive:false});
view.addEventListener('keydown',function(it){if(it.key==='+'||it.key==='=')by(1.5);else if(it.key==='-')by(1/1.5);else if(it.key==='0')fit();});
view.addEventListener('scroll',redraw);
view.addEventListener('click',function(it){var g=it.target.closest('[data-step]');if(g)tell(+g.getAttribute('data-step'));});
function tell(i){hit=i;var it=steps[i];said.innerHTML='<a href="#step:'+(i+1)+'">Step '+(i+1)+'</a> at '+esc(time(it[0]))+': '+esc(it[4].slice(0,300));redraw();}
function look(next){
var text=find.value.trim().toLowerCase();hits=[];
if(text)for(var i=0;i<many;i++)if(steps[i][4].toLowerCase().indexOf(text)>=0)hits.push(i);
if(!text){hit=-1;said.textContent='';redraw();return;}
if(!hits.length){hit=-1;said.textContent='No step has it.';redraw();return;}
var at=hits.find(function(it){return it>(next?hit:hit-1);});if(at===undefined)at=hits[0];
tell(at);said.innerHTML+=' ('+(hits.indexOf(at)+1)+' of '+hits.length+')';view.scrollTop=tops[at]-view.clientHeight/2;redraw();
}
find.addEventListener('input',function(){hit=-1;look(false);});
find.addEventListener('keydown',function(it){if(it.key==='Enter')look(true);});
function all(){measure();size();draw();}
window.addEventListener('resize',all);
window.addEventListener('beforeprint',function(){if(many>400){view.classList.add('empty');return;}printing=true;draw();});
window.addEventListener('afterprint',function(){printing=false;view.classList.remove('empty');draw();});
all();
})();
"""


def run_view(many):
    """The place of a run's drawing, with its tools."""
    tools = (
        '<button id="in" type="button" aria-label="Zoom in">+</button><button id="out" type="button" aria-label="Zoom out">−</button>'
        '<button id="fit" type="button">Whole run</button><button id="each" type="button">Readable</button>'
        '<label>Down the page <select id="mode"><option value="steps">step by step</option><option value="time">by time</option></select></label>'
        '<label>Find <input id="find" type="search" autocomplete="off"></label>'
    )
    return (
        f'<div class="tools" id="tools" hidden>{tools}</div><p class="now" id="now" aria-live="polite"></p>'
        f'<div class="view" id="view" tabindex="0" role="group" aria-label="Drawing of {many:,} steps; + and - zoom, 0 shows the whole run">'
        '<div class="lanes" id="lanes"></div><div class="tall" id="tall"><div class="drawing" id="drawing"></div></div></div>\n'
    )


def lazily(body):
    """A section's body as text, which the page's script puts in place once it is near to being seen. What sheets say is escaped in it."""
    return f'<script type="text/plain">{body}</script>'


def verdict(files, report, is_good):
    """What eds says of the sheet."""
    names = " ".join(shown(it) for it in files)
    word, _, rest = report.strip().partition(" ")
    mark = f'<b class="{"good" if is_good else "bad"}">{shown(word)}</b>'
    lines = f"<span>{shown(rest)} {BY_EDS}</span>"
    return f'<p class="verdict">{mark}{lines}</p><p class="legend"><code>eds check {names}</code></p>'


def page(title, head, nav, main, style="", script=SEARCH, is_lazy=False):
    """A whole page: its heading, the names at its side, and what stands in it."""
    side = ""
    if is_lazy:
        head += '<noscript><p class="note">The page is large: what stands in its sections is shown by its script.</p></noscript>'
    if nav:
        search = '<div class="search" hidden><label for="search">Search</label><input id="search" type="search" autocomplete="off"><output id="said" aria-live="polite"></output></div>'
        side = f'<nav aria-label="Declared names">{search}<details id="names" open><summary>Names</summary>{nav}</details></nav>'
    return (
        f'<!DOCTYPE html>\n<html lang="en">\n<head>\n<meta charset="utf-8">\n<meta name="viewport" content="width=device-width, initial-scale=1">\n'
        f'<title>{shown(title)}</title>\n<link rel="icon" href="data:,">\n<style>{STYLE}{KIND_RULES}{style}</style>\n</head>\n<body>\n'
        f'<a class="skip" href="#main">To the contents</a>\n<header><h1>{shown(title)}</h1>{head}</header>\n'
        f'<div class="frame{"" if side else " plain"}">{side}\n<main id="main">\n{main}</main></div>\n<script>{LAZY.replace("CHUNK", str(CHUNK)) if is_lazy else ""}{script}</script>\n</body>\n</html>\n'
    )
