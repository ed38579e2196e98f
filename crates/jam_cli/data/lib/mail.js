var template = require("tiny-template");

exports.send = function (name) {
  return template.render("Hello, NAME!", name);
};
