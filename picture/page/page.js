(function () {
  'use strict';
  function by(id) { return document.getElementById(id); }
  var frame = by('frame'), world = by('world'), time = by('time'), names = by('names');
  var axis = by('axis'), cursor = by('cursor'), said = by('said'), jump = by('jump'), pick = by('pick');
  var steps = Array.from(world.querySelectorAll('.step'));
  var values = Array.from(world.querySelectorAll('.value'));
  var pitch = +world.dataset.pitch, width = +world.dataset.width, height = +world.dataset.height;
  var now = -1, scale = 1, pinned = null, lit = [];

  // Each operation's marks: its own, and the steps that release its messages.
  var ways = new Map();
  function part(number, mark) {
    if (!ways.has(number)) ways.set(number, []);
    ways.get(number).push(mark);
  }
  world.querySelectorAll('[data-op]').forEach(function (mark) {
    part(mark.dataset.op, mark);
    (mark.dataset.frees || '').split(' ').filter(Boolean).forEach(function (number) {
      if (number !== mark.dataset.op) part(number, mark);
    });
  });

  function light(number) {
    lit.forEach(function (mark) { mark.classList.remove('lit'); });
    lit = number === null ? [] : ways.get(number) || [];
    lit.forEach(function (mark) { mark.classList.add('lit'); });
    world.classList.toggle('pointed', lit.length > 0);
  }

  function pin(number) {
    pinned = number;
    pick.value = number === null ? '' : number;
    light(number);
  }

  function operation(mark) {
    return mark === null || mark.dataset.op === undefined ? null : mark.dataset.op;
  }

  function markAt(event) { return event.target.closest('[data-op], .step'); }

  // What the copies are after a step; the one that it changed stands out.
  function showCopies(place) {
    var cells = {};
    values.forEach(function (value) {
      var data = value.dataset;
      if (+data.place > place) return;
      cells[data.register + ' ' + data.card] = [data.value, +data.place === place];
    });
    document.querySelectorAll('#copies td').forEach(function (cell) {
      var found = cells[cell.dataset.copy];
      if (cell.dataset.copy === undefined) return;
      cell.textContent = found ? found[0] : '0';
      cell.classList.toggle('new', found ? found[1] : false);
    });
  }

  function go(place) {
    if (steps.length === 0) return;
    if (now >= 0) steps[now].classList.remove('now');
    now = Math.max(0, Math.min(steps.length - 1, place));
    var step = steps[now];
    step.classList.add('now');
    cursor.setAttribute('x', now * pitch);
    said.textContent = step.querySelector('title').textContent;
    jump.value = now;
    showCopies(now);
    var x = (now + 0.5) * pitch * scale, room = frame.clientWidth - names.clientWidth;
    if (frame.scrollLeft + 60 > x || x > frame.scrollLeft + room - 60) frame.scrollLeft = x - room / 2;
    var y = step.getBoundingClientRect(), box = frame.getBoundingClientRect();
    if (box.top + 40 > y.top) frame.scrollTop -= box.top + 70 - y.top;
    if (y.bottom > box.bottom - 20) frame.scrollTop += y.bottom - box.bottom + 60;
  }

  function zoom(next) {
    var room = frame.clientWidth - names.clientWidth;
    var at = now >= 0 ? (now + 0.5) * pitch : (frame.scrollLeft + room / 2) / scale;
    var beside = now >= 0 ? at * scale - frame.scrollLeft : room / 2;
    if (0 > beside || beside > room) beside = room / 2;
    scale = Math.max(Math.min(1, room / width), Math.min(4, next));
    // Narrower than drawn, time alone is narrower; wider, all of it is.
    var high = Math.max(1, scale);
    time.setAttribute('transform', 'scale(' + scale + ' ' + high + ')');
    world.setAttribute('width', Math.ceil(width * scale));
    world.setAttribute('height', height * high);
    names.setAttribute('width', names.viewBox.baseVal.width * high);
    names.setAttribute('height', height * high);
    world.style.setProperty('--wide', 1 / scale);
    world.classList.toggle('far', 0.6 > scale);
    world.classList.toggle('farther', 0.06 > scale);
    world.classList.toggle('farthest', 0.012 > scale);
    frame.scrollLeft = at * scale - beside;
    headOn();
  }

  // The next or last step of the operation that is lit, or of the present step.
  function along(way) {
    var number = pinned !== null ? pinned : now >= 0 ? operation(steps[now]) : null;
    if (number === null) return;
    var places = ways.get(number).filter(function (mark) { return mark.classList.contains('step'); })
      .map(function (mark) { return +mark.dataset.place; });
    var next = places.filter(function (place) { return way > 0 ? place > now : now > place; });
    if (next.length > 0) go(way > 0 ? next[0] : next[next.length - 1]);
  }

  function find(kind) {
    var at = steps.findIndex(function (step, place) { return place > now ? step.classList.contains(kind) : false; });
    if (at >= 0) go(at);
  }

  var keys = {
    ArrowRight: function () { go(now + 1); },
    ArrowLeft: function () { go(now - 1); },
    ArrowDown: function () { along(1); },
    ArrowUp: function () { along(-1); },
    PageDown: function () { go(now + 20); },
    PageUp: function () { go(now - 20); },
    Home: function () { go(0); },
    End: function () { go(steps.length - 1); },
    Enter: function () { if (now >= 0) pin(pinned === null ? operation(steps[now]) : null); },
    Escape: function () { pin(null); },
    '+': function () { zoom(scale * 1.5); },
    '=': function () { zoom(scale * 1.5); },
    '-': function () { zoom(scale / 1.5); },
    '0': function () { zoom(1); },
    f: function () { zoom(0); },
    h: function () { find('held'); },
    r: function () { find('refused'); },
    j: function () { jump.focus(); jump.select(); }
  };
  document.addEventListener('keydown', function (event) {
    var other = event.ctrlKey || event.metaKey || event.altKey;
    var typing = /^(INPUT|SELECT|BUTTON)$/.test(event.target.tagName);
    if (other || !keys[event.key]) return;
    if (typing) {
      if (event.key === 'Escape') frame.focus();
      return;
    }
    event.preventDefault();
    keys[event.key]();
  });

  world.addEventListener('mouseover', function (event) {
    var number = operation(markAt(event));
    light(number === null ? pinned : number);
  });
  world.addEventListener('mouseleave', function () { light(pinned); });
  world.addEventListener('click', function (event) {
    var mark = markAt(event);
    pin(operation(mark));
    if (mark !== null) if (mark.classList.contains('step')) go(+mark.dataset.place);
    frame.focus();
  });
  // The numbers of the places stay in sight.
  function headOn() {
    axis.setAttribute('transform', 'translate(0 ' + frame.scrollTop / Math.max(1, scale) + ')');
  }
  frame.addEventListener('scroll', headOn);
  frame.addEventListener('wheel', function (event) {
    if (!event.ctrlKey) return;
    event.preventDefault();
    zoom(scale * (event.deltaY > 0 ? 1 / 1.25 : 1.25));
  }, { passive: false });
  by('in').addEventListener('click', keys['+']);
  by('out').addEventListener('click', keys['-']);
  by('fit').addEventListener('click', keys.f);
  by('same').addEventListener('click', keys['0']);
  by('next').addEventListener('click', keys.ArrowRight);
  by('last').addEventListener('click', keys.ArrowLeft);
  by('held').addEventListener('click', keys.h);
  by('refused').addEventListener('click', keys.r);
  jump.addEventListener('change', function () { if (jump.value !== '') go(Math.floor(+jump.value)); });
  pick.addEventListener('change', function () {
    pin(pick.value === '' ? null : pick.value);
    if (lit.length > 0) go(Math.min.apply(null, lit.filter(function (mark) { return mark.classList.contains('step'); })
      .map(function (mark) { return +mark.dataset.place; })));
  });
  // A link to `#11` opens at step 11, with its operation lit up.
  function follow() {
    var place = /^#([0-9]+)$/.exec(location.hash);
    go(place ? +place[1] : 0);
    if (place) if (steps.length > 0) pin(operation(steps[now]));
  }
  window.addEventListener('hashchange', follow);
  zoom(1);
  follow();
  frame.focus();
}());
