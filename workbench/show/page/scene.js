/* The product in three dimensions: its parts and their lines, light, and from where one looks. */
"use strict";

var report = { data: JSON.parse(document.getElementById("data").textContent) };

report.LIGHT = { ink: 0x23282e, mark: 0x1a66c2, faint: 0x8a929b };
report.DARK = { ink: 0x0b0d10, mark: 0x8cc0ff, faint: 0x7b858f };

/* The triangles of convex polygons, each corner with the normal of its polygon. */
report.geometry = function (polygons) {
  const corners = [], normals = [];
  for (const polygon of polygons) {
    const points = polygon.map((point) => new THREE.Vector3(...point));
    const normal = report.normal(points);
    for (let k = 1; k + 1 < points.length; k++) {
      for (const corner of [points[0], points[k], points[k + 1]]) {
        corners.push(corner.x, corner.y, corner.z);
        normals.push(normal.x, normal.y, normal.z);
      }
    }
  }
  const found = new THREE.BufferGeometry();
  found.setAttribute("position", new THREE.Float32BufferAttribute(corners, 3));
  found.setAttribute("normal", new THREE.Float32BufferAttribute(normals, 3));
  return found;
};

/* The unit normal of a polygon. */
report.normal = function (points) {
  const sum = new THREE.Vector3();
  points.forEach((point, k) => sum.add(point.clone().sub(points[0]).cross(points[(k + 1) % points.length].clone().sub(points[0]))));
  return sum.normalize();
};

/* The sides of polygons, lit as the polygons are: they close the hair lines between polygons side by side. */
report.seams = function (polygons) {
  const ends = [], normals = [];
  for (const polygon of polygons) {
    const normal = report.normal(polygon.map((point) => new THREE.Vector3(...point)));
    polygon.forEach((point, k) => {
      ends.push(...point, ...polygon[(k + 1) % polygon.length]);
      normals.push(normal.x, normal.y, normal.z, normal.x, normal.y, normal.z);
    });
  }
  const found = new THREE.BufferGeometry();
  found.setAttribute("position", new THREE.Float32BufferAttribute(ends, 3));
  found.setAttribute("normal", new THREE.Float32BufferAttribute(normals, 3));
  return found;
};

/* A part: its surface, the same faint, its pieces, and its lines. Its group is moved, in steps of the grid. */
report.Part = class {
  constructor(told, number) {
    this.group = new THREE.Group();
    this.group.name = told.name;
    const colour = new THREE.Color(told.colour);
    const near = { polygonOffset: true, polygonOffsetFactor: 1, polygonOffsetUnits: 1 };
    const far = { polygonOffset: true, polygonOffsetFactor: 2, polygonOffsetUnits: 2, transparent: true };
    this.surface = new THREE.MeshLambertMaterial({ color: colour, ...near });
    const all = report.geometry(told.surface);
    this.solid = new THREE.Mesh(all, this.surface);
    this.solid.userData = { part: number };
    this.rim = new THREE.MeshLambertMaterial({ color: colour, depthWrite: false });
    this.seams = new THREE.LineSegments(report.seams(told.surface), this.rim);
    this.pieces = told.pieces.map(({ points, faces }) => {
      return new THREE.Mesh(report.geometry(faces.map((face) => face.map((corner) => points[corner]))), this.surface);
    });
    /* the depth first, so that of a faint part only what is nearest is seen */
    const hollow = new THREE.MeshBasicMaterial({ colorWrite: false, ...far });
    this.glass = new THREE.MeshLambertMaterial({ color: colour, opacity: 0.16, ...far });
    this.faint = [hollow, this.glass].map((material, k) => new THREE.Mesh(all, material));
    this.faint.forEach((mesh, k) => (mesh.renderOrder = 1 + k));
    const lines = new THREE.BufferGeometry();
    lines.setAttribute("position", new THREE.Float32BufferAttribute(told.lines.flat(), 3));
    this.ink = new THREE.LineBasicMaterial({ transparent: true });
    this.lines = new THREE.LineSegments(lines, this.ink);
    this.lines.renderOrder = 3;
    this.way = new THREE.Line(
      new THREE.BufferGeometry(),
      new THREE.LineDashedMaterial({ color: colour.clone().multiplyScalar(0.8) })
    );
    this.group.add(this.solid, this.seams, ...this.pieces, ...this.faint, this.lines);
    this.box = new THREE.Box3().setFromBufferAttribute(all.getAttribute("position"));
  }

  /* Shows it whole, clear or not at all; lit: pieces that are whole where the rest is clear. */
  dress(look, lit, isMarked, theme) {
    this.solid.visible = this.seams.visible = look === "shown";
    this.pieces.forEach((mesh, k) => (mesh.visible = lit.has(k)));
    this.faint.forEach((mesh) => (mesh.visible = look === "clear"));
    this.lines.visible = look !== "hidden";
    this.way.visible = look === "shown";
    this.ink.color.setHex(look === "clear" ? theme.faint : isMarked ? theme.mark : theme.ink);
    this.ink.opacity = look === "clear" ? 0.45 : 1;
    for (const material of [this.surface, this.rim]) material.emissive.setHex(isMarked ? 0x141414 : 0);
  }

  /* The dashed line from where its middle was to where it is, by way of these places. */
  trail(places, length) {
    const middle = this.box.getCenter(new THREE.Vector3());
    this.way.geometry.dispose();
    this.way.geometry = new THREE.BufferGeometry().setFromPoints(places.map((at) => middle.clone().add(at)));
    this.way.material.dashSize = this.way.material.gapSize = length;
    this.way.computeLineDistances();
  }
};

report.Scene = class {
  constructor(canvas, data) {
    this.canvas = canvas;
    this.data = data;
    this.renderer = new THREE.WebGLRenderer({ canvas, antialias: true, alpha: true });
    this.renderer.setClearColor(0, 0);
    this.scene = new THREE.Scene();
    this.root = new THREE.Group();
    this.parts = data.parts.map((told, number) => new report.Part(told, number));
    this.root.add(...this.parts.map((part) => part.group), ...this.parts.map((part) => part.way));
    this.rows = data.places.map((row) => row.map((at) => new THREE.Vector3(...at)));
    this.camera = new THREE.PerspectiveCamera(24, 1, 0.1, 10000);
    this.camera.up.set(0, 0, 1);
    this.light();
    this.measure();
    this.makeArrow();
    this.scene.add(this.root, this.camera);
    this.at = 0;
    this.isFitted = true;
  }

  light() {
    const sun = new THREE.DirectionalLight(0xffffff, 0.5);
    sun.position.set(-0.55, 0.75, 0.9);
    this.camera.add(sun, sun.target);
    const sky = new THREE.HemisphereLight(0xffffff, 0xa8a8a8, 0.66);
    sky.position.set(0, 0, 1);
    this.scene.add(sky);
  }

  /* Makes the product ten units long around the origin, whatever its own unit is. */
  measure() {
    const whole = new THREE.Box3();
    this.parts.forEach((part) => whole.union(part.box));
    const size = whole.getSize(new THREE.Vector3());
    this.extent = Math.max(size.x, size.y, size.z);
    const scale = 10 / this.extent;
    this.root.scale.setScalar(scale);
    this.root.position.copy(whole.getCenter(new THREE.Vector3()).multiplyScalar(-scale));
    this.root.updateMatrixWorld(true);
  }

  makeArrow() {
    const length = 0.16 * this.extent;
    this.arrowLength = length;
    const look = new THREE.MeshBasicMaterial({ transparent: true, depthTest: false });
    const shaft = new THREE.Mesh(new THREE.CylinderGeometry(0.055 * length, 0.055 * length, 0.6 * length, 12), look);
    const tip = new THREE.Mesh(new THREE.ConeGeometry(0.17 * length, 0.4 * length, 20), look);
    shaft.position.y = 0.3 * length;
    tip.position.y = 0.8 * length;
    this.arrow = new THREE.Group().add(shaft, tip);
    shaft.renderOrder = tip.renderOrder = 9;
    this.arrowLook = look;
    this.root.add(this.arrow);
  }

  /* Where the arrow of a step begins: before the parts that move, on the way. */
  arrowStart(step, places) {
    const box = new THREE.Box3();
    for (const part of step.moved) box.union(this.parts[part].box.clone().translate(places[part]));
    return this.before(box, step.along);
  }

  /* The place a little before a box, along a direction from its middle. */
  before(box, along) {
    const way = new THREE.Vector3(...along).normalize();
    const middle = box.getCenter(new THREE.Vector3());
    const half = box.getSize(new THREE.Vector3()).multiplyScalar(0.5);
    const reach = ["x", "y", "z"].map((axis) => (way[axis] ? half[axis] / Math.abs(way[axis]) : Infinity));
    return { start: middle.addScaledVector(way, Math.min(...reach) + 0.05 * this.extent), way };
  }

  setArrow(found) {
    this.arrow.visible = Boolean(found);
    if (!found) return;
    this.arrow.position.copy(found.start);
    this.arrow.quaternion.setFromUnitVectors(new THREE.Vector3(0, 1, 0), found.way);
  }

  /* The arrow along which a piece is held; else that of the step at hand. */
  point(hold) {
    const step = this.data.steps[Math.ceil(this.at) - 1];
    if (hold && !hold.along) this.setArrow(null);
    else if (hold) {
      const { group, pieces } = this.parts[hold.part];
      const box = new THREE.Box3().setFromBufferAttribute(pieces[hold.piece].geometry.getAttribute("position"));
      this.setArrow(this.before(box.translate(group.position), hold.along));
    } else this.setArrow(step && this.arrowStart(step, this.places(this.at)));
  }

  /* Where the parts are at a time: a whole number is the end of that step. */
  places(time) {
    const before = Math.min(Math.floor(time), this.rows.length - 1);
    const after = Math.min(before + 1, this.rows.length - 1);
    return this.rows[before].map((at, part) => at.clone().lerp(this.rows[after][part], time - before));
  }

  /* Moves the parts to where they are at a time. */
  go(time) {
    this.at = time;
    const places = this.places(time);
    const past = this.rows.slice(0, Math.ceil(time));
    this.parts.forEach((part, number) => {
      part.group.position.copy(places[number]);
      part.trail([...past.map((row) => row[number]), places[number]], 0.02 * this.extent);
    });
    this.point(null);
    if (this.isFitted) this.fit();
  }

  /* What is seen: the mode of each part, the pieces that are lit, the parts that are marked. */
  dress(modes, lit, marked, theme) {
    this.arrowLook.color.setHex(theme.mark);
    this.parts.forEach((part, number) => {
      part.dress(modes[number], lit.get(number) || new Set(), marked.has(number), theme);
    });
  }

  /* The corners of all parts after a step, with the arrows of that step and the next one. */
  reach(row) {
    const places = this.rows[row];
    const found = [];
    this.parts.forEach((part, number) => {
      const { min, max } = part.box.clone().translate(places[number]);
      for (const x of [min.x, max.x]) for (const y of [min.y, max.y]) for (const z of [min.z, max.z]) {
        found.push(new THREE.Vector3(x, y, z));
      }
    });
    for (const step of this.data.steps.slice(Math.max(0, row - 1), row + 1)) {
      const { start, way } = this.arrowStart(step, places);
      found.push(start.addScaledVector(way, this.arrowLength));
    }
    return found.map((point) => point.applyMatrix4(this.root.matrixWorld));
  }

  /* For each step the middle of what is seen and how far away one stands, for the width and height of the picture. */
  prepare(width, height) {
    this.camera.aspect = width / height;
    this.camera.updateProjectionMatrix();
    const back = new THREE.Vector3(...this.data.view);
    const right = new THREE.Vector3(0, 0, 1).cross(back).normalize();
    const up = back.clone().cross(right);
    const slope = Math.tan(THREE.Math.degToRad(this.camera.fov / 2));
    this.stands = this.rows.map((_, row) => {
      const points = this.reach(row);
      const middle = new THREE.Vector3();
      for (const axis of [right, up, back]) {
        const along = points.map((point) => point.dot(axis));
        middle.addScaledVector(axis, (Math.min(...along) + Math.max(...along)) / 2);
      }
      const away = points.map((point) => {
        const off = point.clone().sub(middle);
        const wide = Math.abs(off.dot(right)) / (slope * this.camera.aspect);
        return off.dot(back) + Math.max(wide, Math.abs(off.dot(up)) / slope);
      });
      return { middle, distance: 1.06 * Math.max(...away) };
    });
  }

  /* Where one stands at a time. */
  stand(time) {
    const before = this.stands[Math.floor(time)];
    const after = this.stands[Math.ceil(time)];
    const share = time - Math.floor(time);
    return {
      middle: before.middle.clone().lerp(after.middle, share),
      distance: before.distance + share * (after.distance - before.distance),
    };
  }

  /* Puts the eye where all is seen, in the direction in which it looks already. */
  fit() {
    const { middle, distance } = this.stand(this.at);
    const back = this.camera.position.clone().sub(this.target || middle);
    if (back.lengthSq() === 0 || !this.target) back.set(...this.data.view);
    this.target = this.target || new THREE.Vector3();
    this.target.copy(middle);
    this.camera.position.copy(middle).addScaledVector(back.normalize(), distance);
    this.camera.lookAt(middle);
  }

  render() {
    const distance = this.camera.position.distanceTo(this.target);
    this.camera.near = Math.max(distance / 200, distance - 400);
    this.camera.far = distance + 400 + 4 * distance;
    this.camera.updateProjectionMatrix();
    this.renderer.render(this.scene, this.camera);
  }

  resize(width, height, ratio) {
    this.renderer.setPixelRatio(ratio);
    this.renderer.setSize(width, height, false);
    this.prepare(width, height);
    if (this.isFitted) this.fit();
  }

  /* Leaves the screen for pictures of a size, from the first side; what it answers leads back by `come`. */
  leave(width, height) {
    const kept = { isFitted: this.isFitted, position: this.camera.position.clone(), target: this.target.clone() };
    this.isFitted = true;
    this.camera.position.copy(this.target).add(new THREE.Vector3(...this.data.view));
    this.resize(width, height, 2);
    return kept;
  }

  come({ isFitted, position, target }) {
    this.isFitted = isFitted;
    this.camera.position.copy(position);
    this.target.copy(target);
    this.camera.lookAt(target);
  }

  /* The part at a point of the picture, from -1 to 1 in both components; nothing where there is none. */
  pick(x, y) {
    const ray = new THREE.Raycaster();
    ray.setFromCamera({ x, y }, this.camera);
    const found = ray.intersectObjects(this.parts.map((part) => part.solid).filter((mesh) => mesh.visible))[0];
    return found ? found.object.userData : null;
  }

  /* Where each part is, read from its place in the scene, in steps of the grid. */
  read() {
    this.scene.updateMatrixWorld(true);
    const back = new THREE.Matrix4().getInverse(this.root.matrixWorld);
    return this.parts.map((part) => {
      const at = new THREE.Vector3().setFromMatrixPosition(part.group.matrixWorld).applyMatrix4(back);
      return [at.x, at.y, at.z];
    });
  }
};
