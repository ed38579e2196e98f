var mail = require("./lib/mail");

function main(name) {
  console.log(mail.send(name));
}

main("Ada");
